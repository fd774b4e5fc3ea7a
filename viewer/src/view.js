'use strict';
// What the page shows at this moment, and how it names words and objects.

let run = null;
let heap = null;
let plan = null; // where everything stands (layout.js)
const view = {
  picked: null, // what was clicked: {place, birth} of an object, or {key, word} of a root
  word: null, // the place of the picked object's word that is chosen
  trail: [], // what was picked before pointers were followed
  hovered: null, // what is under the pointer
  opened: [], // pages that are shown below the map
  pinned: new Set(), // pages of the map that were clicked
  anchors: [], // words of roots that are shown: {key, word, x, y, box, says}
  rootsShift: 0, // how far down the roots' column stands, so that it stays in sight
};

const focused = () => view.picked || view.hovered;

const anchorOf = (key) => view.anchors.find((a) => a.key === key);

const isInHeap = (word) => heap.isInside(word);

// a word in a few characters
function told(word) {
  const object = heap.find(word);
  if (object) {
    const bytes = word - addressOf(object.place);
    return `#${object.birth}${bytes ? '+' + (bytes % 8 ? `${bytes}B` : bytes / 8) : ''}`;
  }
  if (isInHeap(word)) {
    const place = placeOf(word);
    return `p${pageOf(place)}+${wordInPage(place)}`;
  }
  const text = String(word);
  return text.length <= 9 ? text : text.slice(0, 6) + '..';
}

function named(place) {
  const object = heap.objects.get(place);
  return object ? '#' + object.birth : 'page ' + pageOf(place);
}

// What the collector knows of an object: u not marked, m marked, g forgotten; o where the trace doesn't say it.
function knownOf(object) {
  if (object.forgotten) return 'g';
  if (!run.hasCollector) return 'o';
  return heap.marked.has(object.place) ? 'm' : 'u';
}

// What is true of it: r reached, t touched and not reached, n neither.
function truthOf(object) {
  if (object.forgotten) return 'n';
  if (heap.reached.has(object.place)) return 'r';
  return heap.phase && heap.touched.has(object.place) ? 't' : 'n';
}

// the keys of the root words that a line writes
function freshRoots(record) {
  const fresh = new Set();
  for (const [slot, n] of record.regs || []) fresh.add(`r${slot}.${n}`);
  for (const [slot, keep, ...pushed] of record.stacks || []) {
    pushed.forEach((_, i) => fresh.add(`s${slot}.${keep + i}`));
  }
  for (const [n] of record.globals || []) fresh.add('g' + n);
  return fresh;
}

// words of kept normal objects that point into the object at a place, as [place, word, its object]
function referrers(place) {
  const object = heap.objects.get(place);
  const found = [];
  if (!object || object.forgotten) return found;
  const low = addressOf(object.place);
  const high = low + 8 * object.words;
  heap.memory.forEach((page, p) => {
    for (let i = 0; i < PAGE; i++) {
      if (page[i] < low || page[i] >= high) continue;
      const at = p * PAGE + i;
      const from = heap.objectOver(at);
      if (from && !from.kind && !from.forgotten) found.push([at, page[i], from]);
    }
  });
  return found;
}
