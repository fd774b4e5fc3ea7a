'use strict';
// The export: legend and scene as one SVG with the rules of picture.css, light, and dark where the reader's setting is.

// The rules for pictures, and the light and the dark values of their variables.
function pictureRules() {
  const rules = [];
  const light = {};
  const dark = {};
  const read = (style, into) => {
    for (const name of style) if (name.startsWith('--')) into[name] = style.getPropertyValue(name).trim();
  };
  for (const rule of [...document.styleSheets].flatMap((sheet) => [...sheet.cssRules])) {
    if (rule.selectorText === ':root') read(rule.style, light);
    if (rule.media && /dark/.test(rule.conditionText)) {
      for (const inner of rule.cssRules) if (inner.selectorText === ':root') read(inner.style, dark);
    }
    if (/^\.pic /.test(rule.selectorText || '')) rules.push(rule.cssText.replace(/\.pic /g, ''));
  }
  return { rules: rules.join('\n'), light, dark };
}

// A converter that knows no CSS variables reads this too.
function pictureStyle() {
  const { rules, light, dark } = pictureRules();
  const withValues = (values) => rules.replace(/var\((--\w+)\)/g, (_, name) => values[name] || light[name]);
  return `${withValues(light)}\n@media (prefers-color-scheme: dark) {\n${withValues({ ...light, ...dark })}\n}`;
}

function pictureTitle() {
  const { title } = run.about;
  const { c, r } = run.record;
  return run.at ? `${title}, line ${run.at}: ${c}, answer: ${r}` : `${title}, before the first line`;
}

function picture() {
  return withRootsAtTop(() => {
    const top = 60;
    const width = plan.width + 24;
    const legend = drawLegend(plan.width);
    const height = Math.ceil(top + legend.height + plan.height + 16);
    const title = pictureTitle();
    const at = (y, content) => `<g transform="translate(12 ${y})">${content}</g>`;
    const said = sentence().slice(0, Math.floor(width / 5.6));
    return [
      `<svg xmlns="http://www.w3.org/2000/svg" width="${width}" height="${height}" viewBox="0 0 ${width} ${height}">`,
      `<title>${escaped(title)}</title>`,
      `<desc>${escaped(sentence())}</desc>`,
      `<style>\n${pictureStyle()}\n</style>`,
      DEFS,
      `<rect class="bgfill" width="${width}" height="${height}"/>`,
      at(0, label(0, 20, 'b', title) + label(0, 36, 'soft', said) + label(0, 52, 'soft', capital(sourceText()))),
      at(top, legend.content),
      at(top + legend.height, $('scene').innerHTML),
      '</svg>\n',
    ].join('\n');
  });
}

// Hands the picture to the reader as a file.
function save() {
  const anchor = document.createElement('a');
  anchor.href = URL.createObjectURL(new Blob([picture()], { type: 'image/svg+xml' }));
  anchor.download = `${run.about.title.replace(/[^\w]+/g, '-')}-line-${run.at}.svg`;
  anchor.click();
  setTimeout(() => URL.revokeObjectURL(anchor.href), 1000);
}
