'use strict';
// Arrows from roots and words to what they point into.

const AUTO_ROOTS = 14; // so many arrows of roots are shown by themselves
const AUTO_WORDS = 40;
const MOST_WORDS = 4000;
const MOST_LOOKED = 40000; // so many words are looked at for arrows

// where an arrow to a word ends
function target(word) {
  const place = placeOf(word);
  const s = spot(place);
  if (s) return { x: s.x + plan.u / 2, top: s.y, bottom: s.y + plan.rowH };
  if (!plan.isMap) return null;
  const square = mapSpot(pageOf(place));
  const middle = square.y + plan.side / 2;
  return { x: square.x + plan.side / 2, top: middle, bottom: middle, isMap: true };
}

// The curve from a root; `n` is its number, and `same` how many end at this word already.
function fromRoot(anchor, t, n, same) {
  return plan.isBig && !t.isMap ? byGutter(anchor, t, n, same) : byCurve(anchor, t);
}

// by a gutter beside the pages and a lane above the row
function byGutter(anchor, t, n, same) {
  const x = t.x + (same % 2 ? 5 : -5) * Math.ceil(same / 2);
  const gutter = plan.x - 12 - (n % 6) * 5;
  const lane = t.top - 10 - (n % 4) * 4.5;
  const way = lane < anchor.y ? -1 : 1;
  const bend = Math.min(6, Math.abs(lane - anchor.y) / 2);
  return `M${anchor.x + 4} ${anchor.y}H${gutter - bend}` +
    `Q${gutter} ${anchor.y} ${gutter} ${anchor.y + way * bend}V${lane - way * bend}` +
    `Q${gutter} ${lane} ${gutter + bend} ${lane}H${x - 5}Q${x} ${lane} ${x} ${lane + 5}V${t.top - 1}`;
}

function byCurve(anchor, t) {
  const far = t.x - anchor.x;
  const k = Math.max(24, Math.min(90, far * 0.35));
  const isBelow = t.top < anchor.y - 60 && !t.isMap; // the root stands lower than its object: arrive from beneath
  const y = isBelow ? t.bottom + 1 : t.top - 1;
  const end = `${t.x - (far > 120 ? 26 : 8)} ${y + (isBelow ? 16 : -16)} ${t.x} ${y}`;
  return `M${anchor.x + 3.5} ${anchor.y}C${anchor.x + k} ${anchor.y} ${end}`;
}

function fromWord(s, t) {
  const x = s.x + plan.dotX;
  const y = dotY(s.y);
  if (t.isMap) return `M${x} ${y}Q${(x + t.x) / 2} ${y - 20} ${t.x} ${t.top}`;
  if (Math.abs(t.top - s.y) < 2) {
    const k = Math.min(plan.isBig ? 34 : 22, 14 + Math.abs(t.x - x) * 0.16);
    return `M${x} ${y}C${x} ${s.y - k} ${t.x} ${s.y - k} ${t.x} ${t.top - 1}`;
  }
  const k = Math.min(50, Math.abs(t.top - s.y) * 0.6);
  if (t.top > s.y) return `M${x} ${y}C${x} ${y + k} ${t.x} ${t.top - k} ${t.x} ${t.top - 1}`;
  return `M${x} ${y}C${x} ${y - k} ${t.x} ${t.bottom + k} ${t.x} ${t.bottom + 1}`;
}

// The words of kept normal objects on shown pages that point into something, as [place, word]; null past a bound, or
// where looking for them would take long.
function heapPointers(limit) {
  const found = [];
  let looked = 0;
  for (const object of shownObjects()) {
    looked += object.words;
    if (looked > MOST_LOOKED) return null;
    found.push(...pointersOf(object));
    if (found.length > limit) return null;
  }
  return found;
}

// the kept normal objects that begin on a page which is shown
function* shownObjects() {
  for (const { p, unused } of plan.pages.values()) {
    if (unused || !heap.cells[p] || heap.atomic[p]) continue;
    const step = heap.head[p] >= 0 ? PAGE : heap.size[p];
    for (let place = p * PAGE; place < (p + 1) * PAGE; place += step) {
      const object = heap.objects.get(place);
      if (object && !object.forgotten) yield object;
    }
  }
}

function pointersOf(object) {
  const found = [];
  for (let i = object.place; i < object.place + object.words; i++) {
    if (heap.find(heap.plainWord(i))) found.push([i, heap.plainWord(i)]);
  }
  return found;
}

// Arrows as they are drawn: those of the line and of the selection are strong, and come last.
class Arrows {
  constructor() {
    this.plain = '';
    this.strong = '';
    this.count = 0;
  }

  add(look, d) {
    if (look === 'an' || look === 'af') {
      this.strong += path('casing', d) + path(look, d);
      return;
    }
    this.plain += (plan.isBig ? path('casing', d) : '') + path(look, d);
    this.count++;
  }

  get text() {
    return (this.count > 40 ? `<g class="crowd">${this.plain}</g>` : this.plain) + this.strong;
  }
}

function drawArrows() {
  const mode = $('arrows').value;
  const focus = focused();
  const arrows = new Arrows();
  if (mode === 'none' && !focus) return '';
  addRootArrows(arrows, mode, focus);
  const own = addOwnArrows(arrows, focus);
  if (mode === 'none') return arrows.text;
  addHeapArrows(arrows, mode, own);
  addLinks(arrows);
  return arrows.text;
}

function addRootArrows(arrows, mode, focus) {
  const isFocus = (object, key) => focus && (focus.place === object.place || focus.key === key);
  const fresh = freshRoots(run.record);
  const shown = view.anchors
    .map((anchor) => ({ anchor, object: pointedAt(anchor) }))
    .filter(({ anchor, object }) => object && (!isEntryKey(anchor.key) || isFocus(object, anchor.key)));
  const isAll = mode === 'all' || (mode === 'auto' && shown.length <= AUTO_ROOTS);
  const into = new Map(); // how many arrows end at a word
  let n = 0;
  for (const { anchor, object } of shown) {
    const isFresh = fresh.has(anchor.key) && mode !== 'none';
    const look = isFocus(object, anchor.key) ? 'af' : isFresh ? 'an' : 'ar';
    const t = isAll || look !== 'ar' ? target(anchor.word) : null;
    if (!t) continue;
    const same = into.get(anchor.word) || 0;
    into.set(anchor.word, same + 1);
    arrows.add(look, fromRoot(anchor, t, n++, same));
  }
}

// An entry of the mark stack names an object that may be forgotten; other words point into kept ones alone.
function pointedAt({ key, word }) {
  return isEntryKey(key) ? heap.objects.get(placeOf(word)) : heap.find(word);
}

// Arrows to and from the selected object, and of the words that the line wrote; answers whose they are.
function addOwnArrows(arrows, focus) {
  const own = new Map(); // place of a word -> the look of its arrow
  for (const [i] of run.record.wrote || []) {
    const object = heap.objectOver(i);
    if (object && !object.kind && !object.forgotten && heap.find(heap.plainWord(i))) own.set(i, 'an');
  }
  if (focus && 'place' in focus) {
    for (const [i] of referrers(focus.place)) own.set(i, 'af');
    const object = heap.objects.get(focus.place);
    if (object && !object.forgotten && !object.kind) for (const [i] of pointersOf(object)) own.set(i, 'af');
  }
  for (const [i, look] of own) addFromWord(arrows, look, i, heap.plainWord(i));
  return own;
}

function addFromWord(arrows, look, place, word) {
  const s = spot(place);
  const t = s && target(word);
  if (t) arrows.add(look, fromWord(s, t));
}

function addHeapArrows(arrows, mode, own) {
  if (plan.isMap && mode === 'auto') return;
  for (const [i, word] of heapPointers(mode === 'all' ? MOST_WORDS : AUTO_WORDS) || []) {
    if (!own.has(i)) addFromWord(arrows, 'ar', i, word);
  }
}

function addLinks(arrows) {
  for (const [i, base] of heap.links) addFromWord(arrows, 'al', i, addressOf(base));
}
