'use strict';
// The legend: each look of a cell, a page, a word and a line that stands in the picture now, with its name. It keeps the
// height that all looks of the run need, so that nothing below it moves.

// A look is a name of picture.css, with others that mean the same behind it.
function legendGroups() {
  const { ever, hasCollector } = run;
  const known = [
    ['cu', 'not marked'],
    ['cm', 'marked'],
    ['entry', 'on the mark stack'],
    ...(ever.hasForgotten ? [['cg', 'forgotten, to be swept']] : []),
    ['cf', 'free'],
  ];
  return [
    hasCollector ? ['above: what the collector knows', known] : ['cells', [['co', 'an object'], ['cf', 'free']]],
    ['below: what is true', [
      ['tr', 'reached'],
      ...(ever.hasTouched ? [['tt', 'touched, not reached']] : []),
      ['tn', 'neither'],
    ]],
    ['words', [
      ['ptr ptrm', 'points into an object'],
      ['stray', 'into nothing'],
      ...(plan.isGrid ? [['value', 'another word']] : []),
      ...(ever.hasLinks ? [['al', 'a link']] : []),
    ]],
    ['rings, borders, bars', [
      ['new rnew an', 'changed by this line'],
      ...(ever.hasFreed ? [['gone', 'freed by this line']] : []),
      ...(ever.hasLooked ? [['looked', 'read by this line']] : []),
      ...(hasCollector ? [['dirty', 'dirty page']] : []),
      ...(ever.hasCarried ? [['carried', 'carried page']] : []),
      ...(plan.isMap ? [['cross', 'page to be swept'], ['opened', 'page shown below']] : []),
      ['sel af', 'picked'],
    ]],
  ];
}

// one sample of a look
function sample(looks, x, y) {
  const look = looks.split(' ')[0];
  const cell = (name, top, h) => path(name, box(x + 0.5, y + top + 0.5, 19, h));
  switch (look) {
    case 'cu': case 'cm': case 'cf': case 'co': return cell(look, 1, 12);
    case 'cg': return cell('cg', 1, 12) + cell('hatch', 1, 12);
    case 'entry': return cell('cm', 1, 12) + path('entry', `M${x + 11} ${y + 1.5}h9v8z`);
    case 'tr': case 'tt': case 'tn': return cell(look, 4, 6);
    case 'looked': return cell('cm', 1, 12) + path('looked', box(x + 3, y + 9, 14, 4));
    case 'ptr': case 'stray': return circle(look, x + 13, y + 8, 2.6);
    case 'value': return path('value', `M${x + 5} ${y + 8}h10`);
    case 'cross': return path('cross', `M${x + 5} ${y + 3}l10 10m0 -10l-10 10`);
    case 'al': return path('al', `M${x} ${y + 8}h19`);
    default: return cell(look, 2, 10);
  }
}

// whether one of these looks stands in the picture
const stands = (looks) => looks.split(' ').some((look) => $('scene').querySelector('.' + look));

function makeLegend() {
  const item = ([looks, text]) => `<li data-looks="${looks}"><svg class="pic" width="20" height="16" aria-hidden="true">` +
    `${sample(looks, 0, 0)}</svg>${text}</li>`;
  const group = ([title, items]) => `<li><b>${title}</b><ul>${items.map(item).join('')}</ul></li>`;
  const legend = $('legend');
  legend.innerHTML = legendGroups().map(group).join('');
  legend.style.minHeight = '';
  legend.style.minHeight = `${legend.offsetHeight}px`;
}

function showLegend() {
  for (const item of $('legend').querySelectorAll('[data-looks]')) {
    item.hidden = !stands(item.dataset.looks);
  }
  for (const group of $('legend').children) group.hidden = !group.querySelector('[data-looks]:not([hidden])');
}

// The legend of an exported picture, in this width: what it draws, and how high that is.
function drawLegend(width) {
  let y = 0;
  let out = '';
  for (const [title, all] of legendGroups()) {
    const items = all.filter(([looks]) => stands(looks));
    if (!items.length) continue;
    let x = measure(title, true) + 12;
    out += label(0, y + 12, 'b', title);
    for (const [looks, text] of items) {
      const w = measure(text) + 25;
      if (x + w > width) {
        x = 14;
        y += 19;
      }
      out += sample(looks, x, y) + label(x + 25, y + 12, '', text);
      x += w + 16;
    }
    y += 19;
  }
  return { content: out, height: y + 3 };
}
