'use strict';
// Rings around what the line changed and around the selection, and light on the words that the line read.

const MOST_RINGS = 500;
const THIN_FROM = 60; // so many rings are drawn thin

const ringOf = (piece) => box(piece.x - 0.5, piece.y - 1, piece.w + 1, plan.rowH + 2);

const ringsAt = (place) => {
  const object = heap.objects.get(place);
  return object ? piecesOf(object).map(ringOf).join('') : '';
};

function drawRings() {
  const record = run.record;
  const comes = (record.new || []).map(([place]) => place);
  const objects = [...comes, ...(record.marked?.['+'] || []), ...(record.forget || [])].slice(0, MOST_RINGS);
  const words = (record.wrote || []).slice(0, MOST_RINGS);
  const changed = objects.map(ringsAt).join('') + words.map(([place]) => ringAroundWord(place)).join('');
  const look = objects.length + words.length > THIN_FROM ? 'new thin' : 'new';
  const freed = ringsOfFreed(record, comes);
  const picked = selection();
  return drawLooked(record) + path('ringcase', changed + freed + picked) + path(look, changed) + path('gone', freed) +
    path('sel', picked);
}

// a word that was written
function ringAroundWord(place) {
  return pieces(place, 1)
    .map(({ x, y }) => {
      if (plan.isBig) return box(x + 1, y + 15, plan.u - 2, plan.upH - 16);
      return box(x + 1, y + 0.5, plan.u - 2, plan.upH);
    })
    .join('');
}

// cells that the line made free, where their page is still cut into such cells
function ringsOfFreed(record, comes) {
  const fresh = new Set(comes);
  return (record.free || [])
    .slice(0, MOST_RINGS)
    .filter((place) => heap.cells[pageOf(place)] && heap.head[pageOf(place)] < 0 && !fresh.has(place))
    .flatMap((place) => pieces(place, heap.size[pageOf(place)]).map(ringOf))
    .join('');
}

function selection() {
  let rings = '';
  for (const focus of [view.picked, view.hovered]) {
    if (!focus) continue;
    if ('place' in focus) rings += ringsAt(focus.place);
    const anchor = focus.key && anchorOf(focus.key);
    if (!anchor) continue;
    const [x, y, w, h] = anchor.box;
    rings += box(x + 0.5, y + 0.5, w - 1, h - 1);
  }
  if (view.word !== null && view.picked) rings += ringAroundWord(view.word);
  return rings;
}

// The words of marked objects that the line read: a bar under each run of them.
function drawLooked(record) {
  const h = Math.max(2, Math.min(4, plan.upH * 0.25));
  const bar = ({ x, y, w }) => box(x + 1, y + plan.upH - h - 0.5, Math.max(1, w - 2), h);
  const runs = (record.looked || []).flatMap(([place, words]) => piecesOf({ place, words }));
  return path('looked', runs.map(bar).join(''));
}
