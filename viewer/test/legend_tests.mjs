// One meaning a look: what the legend names stands in the picture, what stands there it names, and no two of its samples
// look alike. What has to stand there is told by the state that the trace leads to.
import assert from 'node:assert/strict';

const NAMED = `[...$('legend').querySelectorAll('[data-looks]')].filter((e) => e.offsetParent).map((e) => e.textContent)`;

// what the legend has to name of the cells, by a state alone
function wanted(state, { about }) {
  const kept = state.objects.filter((object) => !object[4]);
  const reached = new Set(state.reached);
  const touched = new Set(state.phase ? state.touched : []);
  const marked = new Set(state.marked);
  const waits = [...state.entries, ...(state.current ? [state.current] : [])];
  const isKept = (place) => kept.some(([base]) => base === place);
  const has = about.collector !== 0;
  return {
    'an object': !has && kept.length > 0,
    'not marked': has && kept.some(([base]) => !marked.has(base)),
    marked: has && kept.some(([base]) => marked.has(base)),
    'on the mark stack': waits.some(([place]) => isKept(place)),
    'forgotten, to be swept': kept.length < state.objects.length,
    reached: kept.some(([base]) => reached.has(base)),
    'touched, not reached': kept.some(([base]) => touched.has(base) && !reached.has(base)),
    neither: state.objects.some(([base, , , , isGone]) => isGone || (!reached.has(base) && !touched.has(base))),
    'dirty page': state.dirty.length > 0,
    'carried page': state.carried.length > 0,
  };
}

export async function legendTells(page, trace) {
  if (trace.about.pages > 64) return; // of a map only some pages are drawn
  for (const line of new Set(trace.walk)) {
    await page.run(`viewer.go(${line})`);
    const named = await page.run(NAMED);
    for (const [text, isWanted] of Object.entries(wanted(trace.states.get(line), trace))) {
      assert.equal(named.includes(text), isWanted, `the legend names '${text}' after line ${line}: ${named.join(', ')}`);
    }
  }
}

// Looks of frames, texts and what lies under others mean nothing by themselves.
const PLAIN = ['frame', 'freepage', 'casing', 'ringcase', 'crowd', 'wordsep', 'rbox', 'meter', 'ar', 'hatch', 'thin', 'slim',
  'b', 'soft', 'mono', 'mid', 'end', 'onmark', 'onhatch', 'tagd', 'tagc', 'tagp', 'head'];

const UNNAMED = `(() => {
  const items = [...$('legend').querySelectorAll('[data-looks]:not([hidden])')];
  const named = new Set(items.flatMap((e) => e.dataset.looks.split(' ')));
  const drawn = new Set([...$('scene').querySelectorAll('[class]')].flatMap((e) => e.getAttribute('class').split(' ')));
  return [...drawn].filter((look) => !named.has(look) && !${JSON.stringify(PLAIN)}.includes(look));
})()`;

// Each sample as it is painted: fills, strokes, dashes and shapes.
const ALIKE = `(() => {
  const painted = (e) => {
    const { fill, stroke, strokeDasharray, strokeWidth } = getComputedStyle(e);
    return [e.tagName, fill, stroke, strokeDasharray, strokeWidth].join(' ');
  };
  const seen = new Map();
  const alike = [];
  for (const item of $('legend').querySelectorAll('[data-looks]')) {
    const look = [...item.querySelectorAll('svg *')].map(painted).join('; ');
    if (seen.has(look)) alike.push(seen.get(look) + ' and ' + item.textContent);
    seen.set(look, item.textContent);
  }
  return alike;
})()`;

// Areas of the plot have the looks that the legend has for the same.
const AREAS = `areas().map(([look, , text]) => {
  const item = [...$('legend').querySelectorAll('[data-looks]')].find((e) => e.dataset.looks.split(' ').includes(look));
  return [item ? item.textContent : '', text];
})`;

export async function oneMeaning(page, { walk }) {
  for (const line of new Set(walk)) {
    await page.run(`viewer.go(${line})`);
    assert.deepEqual(await page.run(UNNAMED), [], `looks without a name after line ${line}`);
  }
  assert.deepEqual(await page.run(ALIKE), [], 'samples that look alike');
  for (const [named, text] of await page.run(AREAS)) assert.ok(named.includes(text), `the plot's ${text} is the legend's ${named}`);
}
