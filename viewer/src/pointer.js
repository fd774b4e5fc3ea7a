'use strict';
// What stands under the pointer, and what a click does. It is worked out, not asked of elements.

function under(event) {
  const scene = $('scene').getBoundingClientRect();
  const x = event.clientX - scene.left;
  const y = event.clientY - scene.top;
  return rootUnder(x, y) || objectUnder(x, y) || squareUnder(x, y);
}

function rootUnder(x, y) {
  const isIn = ([left, top, w, h]) => x >= left && x < left + w && y >= top && y < top + h;
  const anchor = view.anchors.find((a) => isIn(a.box));
  return anchor ? { key: anchor.key, word: anchor.word } : null;
}

function objectUnder(x, y) {
  for (const at of plan.pages.values()) {
    if (at.unused || y < at.rowsY - 2 || y > at.rowsY + at.h + 2) continue;
    const object = objectOfPageUnder(at, x, y);
    if (object) return { place: object.place, birth: object.birth };
  }
  return null;
}

function objectOfPageUnder(at, x, y) {
  const per = perRow(Math.min(cellSize(at.p), PAGE), at.across);
  const row = Math.floor((y - at.rowsY) / (plan.rowH + plan.gapY));
  const column = Math.floor((x - at.x - 4) / plan.u);
  const i = row * per + column;
  if (column < 0 || column >= per || i < 0 || i >= PAGE) return null;
  return heap.objectOver(at.p * PAGE + i);
}

function squareUnder(x, y) {
  if (!plan.isMap || y < plan.mapY || y >= plan.mapY + plan.mapH) return null;
  if (x < plan.x || x >= plan.x + plan.perRow * plan.side) return null;
  const p = Math.floor((y - plan.mapY) / plan.side) * plan.perRow + Math.floor((x - plan.x) / plan.side);
  return p < plan.shown ? { page: p } : null;
}

const isSame = (a, b) => (!a && !b) || (a && b && a.place === b.place && a.key === b.key && a.page === b.page);

function onMove(event) {
  const found = under(event);
  $('scene').style.cursor = found ? 'pointer' : '';
  hover(found && !('page' in found) ? found : null);
}

function hover(found) {
  if (isSame(found, view.hovered)) return;
  view.hovered = found;
  drawOver();
  drawInfo();
}

function onClick(event) {
  const found = under(event);
  if (found && 'page' in found) togglePage(found.page);
  else pick(found);
}

// A click on a square of the map opens its page, another closes it.
function togglePage(p) {
  if (view.pinned.has(p)) view.pinned.delete(p);
  else view.pinned.add(p);
  drawScene(true);
}

// A root that points into an object picks that object.
function pick(found) {
  const object = found && (found.key ? heap.find(found.word) : heap.objects.get(found.place));
  if (object) pickObject(object.place);
  else if (found) pickRoot(found.key);
  else letGo();
}

function showPageOf(place) {
  if (!plan.isMap || view.opened.includes(pageOf(place))) return;
  view.pinned.add(pageOf(place));
  drawScene(true);
}
