'use strict';
// A snapshot of the heap, to which it can go back. It shares each page of memory with the heap until one of these words is
// written, and objects for good: they are never changed, but replaced.

const COPIED_MAPS = ['great', 'links', 'objects'];
const COPIED_ARRAYS = ['globals', 'memory', 'cells', 'size', 'atomic', 'head'];
const PLAIN = ['phase', 'count', 'awaiting', 'hasBegun', 'entries', 'current'];

const copyOfMutators = (mutators) => new Map(
  [...mutators].map(([slot, { regs, stack }]) => [slot, { regs: regs.slice(), stack }]),
);

// Copies the state of one heap or snapshot into another.
function copyState(from, to) {
  for (const name of PLAIN) to[name] = from[name];
  for (const name of COPIED_MAPS) to[name] = new Map(from[name]);
  for (const name of COPIED_ARRAYS) to[name] = from[name].slice();
  for (const name of SETS) to[name] = new Set(from[name]);
  to.sum = { ...from.sum };
  to.mutators = copyOfMutators(from.mutators);
}

function takeSnapshot(heap) {
  const snapshot = {};
  copyState(heap, snapshot);
  heap.own.clear();
  return snapshot;
}

function restore(heap, snapshot) {
  spoilTaken(heap);
  copyState(snapshot, heap);
  heap.own.clear();
  spoilTaken(heap);
}

// Every page that shows something has to be drawn again.
function spoilTaken(heap) {
  for (let p = 0; p < heap.pages; p++) if (heap.cells[p]) heap.stale.add(p);
  for (const name of SETS_OF_PAGES) for (const p of heap[name]) heap.stale.add(p);
  for (const place of heap.links.keys()) heap.stale.add(pageOf(place));
}
