'use strict';
// The map of a heap of many pages: a square for each.

function mapSpot(p) {
  return {
    x: plan.x + (p % plan.perRow) * plan.side,
    y: plan.mapY + Math.floor(p / plan.perRow) * plan.side,
  };
}

// words of a page that are reached, touched and not reached, kept and neither, forgotten, and marked
function tally(p) {
  const sum = { reached: 0, touched: 0, neither: 0, forgotten: 0, marked: 0 };
  if (!heap.cells[p]) return sum;
  const isLarge = heap.head[p] >= 0;
  const size = isLarge ? PAGE : heap.size[p];
  for (let i = 0; i < (isLarge ? 1 : Math.floor(PAGE / size)); i++) {
    const object = heap.objects.get(isLarge ? heap.head[p] * PAGE : p * PAGE + i * size);
    if (!object) continue;
    sum[object.forgotten ? 'forgotten' : TRUTHS[truthOf(object)]] += size;
    if (!object.forgotten && heap.marked.has(object.place)) sum.marked += size;
  }
  return sum;
}

const TRUTHS = { r: 'reached', t: 'touched', n: 'neither' };

const MAP_TEXTS = [
  'a square: left its words, as they are reached or not; right: marked; cross: to be swept',
  'left: what is true; right: marked',
  '',
];
const MAP_TEXTS_OF_RUN = ['a square: its words, as they are reached or not', 'what is true', ''];

// the longest text for which there is room behind the number of pages
const mapText = () => (run.hasCollector ? MAP_TEXTS : MAP_TEXTS_OF_RUN).find((text) => measure(text) < plan.w - 84);

// what changes seldom: the words beside the map and the squares themselves
function drawMapFrame() {
  let squares = '';
  for (let p = 0; p < plan.shown; p++) {
    const { x, y } = mapSpot(p);
    squares += box(x + 1.5, y + 1.5, plan.side - 3, plan.side - 3);
  }
  const rowLabel = (p) => label(plan.x - 6, mapSpot(p).y + plan.side - 4, 'soft end mono', p);
  const unused = `pages ${grouped(plan.shown)} to ${grouped(heap.pages - 1)}: free in the whole run`;
  return [
    label(plan.x, 11, 'b', many(heap.pages, 'page')),
    label(plan.x + 84, 11, 'soft', mapText()),
    rowLabel(0),
    rowLabel((Math.ceil(plan.shown / plan.perRow) - 1) * plan.perRow),
    plan.shown < heap.pages ? label(plan.x, plan.mapY + plan.mapH - 2, 'soft', unused) : '',
    path('cf', squares),
  ].join('');
}

// The looks of a row of squares, each a path.
const MAP_LOOKS = [
  ['tr', 'reached'], ['tt', 'touched'], ['tn', 'neither'], ['cg', 'forgotten'], ['hatch', 'forgotten'], ['cm', 'marked'],
  ['carried', 'carried'], ['dirty', 'dirty'], ['cross', 'pending'],
];

function drawMapRow(row) {
  const drawing = Object.fromEntries(MAP_LOOKS.map(([, name]) => [name, '']));
  const end = Math.min(plan.shown, (row + 1) * plan.perRow);
  for (let p = row * plan.perRow; p < end; p++) {
    drawMarks(drawing, p);
    if (heap.cells[p]) drawTally(drawing, p);
  }
  const look = (name) => (name === 'dirty' && plan.side < 10 ? 'dirty slim' : name);
  return MAP_LOOKS.map(([name, of]) => path(look(name), drawing[of])).join('');
}

function drawMarks(drawing, p) {
  const { x, y } = mapSpot(p);
  const w = plan.side - 3;
  const arm = plan.side - 8;
  if (heap.dirty.has(p)) drawing.dirty += box(x + 1.5, y + 1.5, w, w);
  if (heap.carried.has(p)) drawing.carried += box(x + 1.5, y + 1.5, w, w);
  if (heap.pending.has(p)) drawing.pending += `M${x + 4} ${y + 4}l${arm} ${arm}m0 ${-arm}l${-arm} ${arm}`;
}

function drawTally(drawing, p) {
  const { x, y } = mapSpot(p);
  const sum = tally(p);
  const w = plan.side - 3;
  const high = (words) => (w * words) / PAGE;
  const half = run.hasCollector ? w * 0.62 : w;
  let low = 0;
  for (const name of ['reached', 'touched', 'neither', 'forgotten']) {
    if (!sum[name]) continue;
    drawing[name] += box(x + 1.5, y + 1.5 + w - high(low + sum[name]), half, high(sum[name]));
    low += sum[name];
  }
  if (!sum.marked) return;
  drawing.marked += box(x + 1.5 + half, y + 1.5 + w - high(sum.marked), w - half, high(sum.marked));
}

function drawOpened() {
  const frame = (p) => box(mapSpot(p).x - 0.5, mapSpot(p).y - 0.5, plan.side + 1, plan.side + 1);
  return path('opened', view.opened.map(frame).join(''));
}
