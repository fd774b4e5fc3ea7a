'use strict';
// The plot: bands of their own scale above one axis, the lines of the script.

let plot = null; // {x0, x1, width, step, columns, bands, height}

// The areas of the words, the lowest first: a look, the series at their upper edge, and their name.
function areas() {
  const { ever, hasCollector } = run;
  return [
    ['tr', 'reached', 'reached'],
    ...(ever.hasTouched ? [['tt', 'held', 'touched, not reached']] : []),
    ['tn', 'kept', 'neither'],
    ...(hasCollector && ever.hasForgotten ? [['cg', 'taken', 'to be swept']] : []),
  ];
}

function plotBands(isNarrow) {
  const also = run.ever.hasCarried ? 'carried' : null;
  const dirty = also && !isNarrow ? 'dirty, carried pages' : 'dirty pages';
  const words = { h: 14 * areas().length, isArea: true, name: 'taken' };
  if (!run.hasCollector) return [words];
  return [
    words,
    { h: 21, name: 'marked', text: 'marked objects' },
    { h: 17, name: 'entries', text: isNarrow ? 'entries' : 'mark stack entries' },
    { h: 17, name: 'dirty', text: dirty, look: 'serd', also },
    { h: 23, name: 'pause', text: isNarrow ? 'pause reads' : 'words read in a pause', isBars: true },
  ];
}

const greatest = (values) => values.reduce((most, value) => (value > most ? value : most), 0);

// Makes the plan of the plot for a width: its bands stand below each other, four apart, behind their names.
function planPlot(width) {
  const isNarrow = width < 700;
  const slots = run.last + 1;
  let y = 4;
  const bands = plotBands(isNarrow).map((band) => {
    const top = y;
    y += band.h + 4;
    const also = band.also ? greatest(run.series[band.also]) : 0;
    return { ...band, y: top, most: Math.max(1, greatest(run.series[band.name]), also) };
  });
  const x0 = Math.max(isNarrow ? 108 : 182, Math.ceil(roomForNames(bands[0], isNarrow)));
  const x1 = width - (isNarrow ? 58 : 74);
  const columns = Math.max(1, Math.min(slots, Math.floor(x1 - x0)));
  return { isNarrow, x0, x1, width: x1 - x0, step: (x1 - x0) / slots, slots, columns, bands, height: y };
}

// The names of the areas stand beside the greatest number of words.
function roomForNames({ most }, isNarrow) {
  const names = areas().map(([, , text]) => measure(shortened(text, isNarrow)));
  return 15 + Math.max(...names) + measure(grouped(most)) + 14;
}

// the greatest value among the lines of a column
function mostIn(values, column) {
  const per = plot.slots / plot.columns;
  const from = Math.floor(column * per);
  const to = Math.max(from + 1, Math.floor((column + 1) * per));
  return greatest(values.subarray(from, to));
}

const columnX = (column) => +(plot.x0 + (column * plot.width) / plot.columns).toFixed(2);

// the height of a column's value in a band
const valueY = (values, column, { y, h, most }) => +(y + h - (h * mostIn(values, column)) / most).toFixed(1);

// the steps of a series, as points from left to right
function stepPoints(values, band) {
  const points = [];
  for (let column = 0; column < plot.columns; column++) {
    const y = valueY(values, column, band);
    points.push([columnX(column), y], [columnX(column + 1), y]);
  }
  return points;
}

const joined = (points) => 'M' + points.map((point) => point.join(' ')).join('L');

const between = (low, high) => joined(high.concat(low.slice().reverse())) + 'z';

function drawPlot() {
  const svg = $('plot');
  const width = svg.parentNode.clientWidth - (window.innerWidth <= 900 ? 16 : 28);
  plot = planPlot(width);
  const content = drawPhases() + plot.bands.map(drawBand).join('') + drawAxis() + '<g id="g-cursor"></g>';
  fill(svg, width, plot.height + 12, content);
}

// where a cycle is marking
function drawPhases() {
  const { phase } = run.series;
  let shades = '';
  let from = -1;
  for (let i = 0; i <= plot.slots; i++) {
    const isOn = i < plot.slots && phase[i] > 0;
    if (isOn && from < 0) from = i;
    if (isOn || from < 0) continue;
    shades += box(plot.x0 + from * plot.step, 4, Math.max(0.5, (i - from) * plot.step), plot.height - 4);
    from = -1;
  }
  return path('phase', shades);
}

function drawBand(band) {
  const { y, h, name, most } = band;
  const values = run.series[name];
  const hasAny = band.isArea || band.also || values.some((value) => value);
  return path('rule', `M${plot.x0} ${y + h + 0.5}H${plot.x1}`) +
    (band.isArea ? drawAreas(band) : label(0, y + h - 2, '', band.text) + drawSeries(band, values)) +
    (hasAny ? label(plot.x0 - 4, y + 8, 'soft end mono', grouped(most)) : '');
}

function drawSeries(band, values) {
  if (band.isBars) return drawBars(band, values);
  const also = band.also ? path('serc', joined(stepPoints(run.series[band.also], band))) : '';
  return path(band.look || 'ser', joined(stepPoints(values, band))) + also;
}

function drawBars(band, values) {
  let bars = '';
  for (let column = 0; column < plot.columns; column++) {
    const value = mostIn(values, column);
    if (!value) continue;
    const x = (columnX(column) + plot.width / plot.columns / 2).toFixed(1);
    bars += `M${x} ${band.y + band.h}v${-((band.h * value) / band.most).toFixed(1)}`;
  }
  return path('bar', bars);
}

// words as they are reached, touched, neither and forgotten, above each other
function drawAreas(band) {
  let low = [[plot.x0, band.y + band.h], [plot.x1, band.y + band.h]];
  let out = '';
  areas().forEach(([look, name, text], i) => {
    const high = stepPoints(run.series[name], band);
    const top = band.y + band.h - 14 * (i + 1);
    const draw = (d) => path(look, d) + (look === 'cg' ? path('hatch', d) : '');
    out += draw(between(low, high)) + draw(box(0.5, top + 2, 9, 8)) + label(15, top + 10, '', shortened(text, plot.isNarrow));
    low = high;
  });
  return out;
}

const shortened = (text, isNarrow) => (isNarrow ? text.replace(', not reached', '').replace('to be swept', 'to sweep') : text);

function drawAxis() {
  const y = plot.height + 9;
  const text = `lines of the ${run.hasCollector ? 'script' : 'run'}; shaded: a cycle is marking`;
  const middle = label((plot.x0 + plot.x1) / 2, y, 'soft mid', text);
  return label(plot.x0, y, 'soft', 'line 0') +
    label(plot.x1, y, 'soft end', grouped(run.last)) +
    (plot.isNarrow ? '' : middle);
}

// -- the cursor, and each series' value there

function drawCursor() {
  const i = run.at;
  const x = plot.x0 + (i + 0.5) * plot.step;
  const band = box(plot.x0 + i * plot.step, 4, plot.step, plot.height - 4);
  $('g-cursor').innerHTML = (plot.step > 3 ? path('cursorband', band) : '') +
    path('cursor', `M${x.toFixed(1)} 2V${plot.height}`) +
    plot.bands.map((b) => (b.isArea ? drawAreaValues(b, i) : drawValue(b, i))).join('');
}

const valueLabel = (y, text) => label(plot.x1 + 6, y, 'mono b', text);

function drawAreaValues({ y, h }, i) {
  let below = 0;
  return areas().map(([, name], n) => {
    const value = run.series[name][i] - below;
    below = run.series[name][i];
    return valueLabel(y + h - 14 * n - 4, grouped(value));
  }).join('');
}

function drawValue({ y, h, name, also, isBars }, i) {
  const value = run.series[name][i];
  const text = also ? `${value}, ${run.series[also][i]}` : isBars && !value ? '' : grouped(value);
  return valueLabel(y + h - 3, text);
}

// the line at a point of the plot; null left of it
function lineAt(x) {
  return x >= plot.x0 - 4 ? Math.floor((x - plot.x0) / plot.step) : null;
}
