'use strict';
// What pictures are drawn with: paths, labels, and how wide a text is.

const FONT = '11px system-ui, "Segoe UI", "Liberation Sans", "DejaVu Sans", sans-serif';

const box = (x, y, w, h) => `M${+x.toFixed(2)} ${+y.toFixed(2)}h${+w.toFixed(2)}v${+h.toFixed(2)}h${-w.toFixed(2)}z`;

const path = (look, d) => (d ? `<path class="${look}" d="${d}"/>` : '');

const circle = (look, x, y, r) => `<circle class="${look}" cx="${x}" cy="${y}" r="${r}"/>`;

function label(x, y, look, text) {
  return `<text x="${+x.toFixed(1)}" y="${+y.toFixed(1)}" class="${look}">${escaped(text)}</text>`;
}

const tip = (kind) => `<marker id="tip-${kind}" viewBox="0 0 8 8" refX="7" refY="4" markerWidth="7" markerHeight="7"
 markerUnits="userSpaceOnUse" orient="auto"><path class="tip${kind}" d="M0 .8 8 4 0 7.200z"/></marker>`;

const DEFS = `<defs>
<pattern id="hatch" width="5" height="5" patternUnits="userSpaceOnUse" patternTransform="rotate(45)">
<path class="hatchline" d="M0 0v5"/></pattern>
<pattern id="dots" width="4" height="4" patternUnits="userSpaceOnUse"><rect class="bgfill" width="4" height="4"/>
<circle class="dot" cx="1" cy="1" r=".9"/><circle class="dot" cx="3" cy="3" r=".9"/></pattern>
${['r', 'l', 'n', 'f'].map(tip).join('\n')}
</defs>`;

const pen = document.createElement('canvas').getContext('2d');
const widths = new Map();

// how wide a label is
function measure(text, isBold) {
  const key = (isBold ? '!' : '') + text;
  if (widths.has(key)) return widths.get(key);
  if (widths.size > 5000) widths.clear();
  pen.font = (isBold ? '650 ' : '') + FONT;
  widths.set(key, pen.measureText(text).width);
  return widths.get(key);
}

// Gives an SVG element its size and what is drawn in it.
function fill(svg, width, height, content) {
  svg.setAttribute('width', width);
  svg.setAttribute('height', height);
  svg.setAttribute('viewBox', `0 0 ${width} ${height}`);
  if (content !== undefined) svg.innerHTML = content;
}
