'use strict';
// What a run ever uses, gathered on the way through its lines: which pages and how far, which registers, how deep the
// stacks, which globals, and what the legend may have to name.

class Ever {
  constructor() {
    this.pages = new Map(); // page -> Map of object size -> last word used
    this.registers = new Map(); // slot -> Set of registers that are ever not 0
    this.depth = new Map(); // slot -> deepest stack
    this.globals = new Set();
    this.hasCarried = false;
    this.hasLinks = false;
    this.hasLooked = false; // the trace says which words were read
    this.hasCycle = false;
    this.hasForgotten = false;
    this.hasTouched = false; // touched and not reached
    this.hasFreed = false;
  }

  note(heap, record, isFirst) {
    for (const made of record.new || []) this.noteObject(made);
    this.noteRoots(heap, record);
    if (isFirst && record.full) this.noteWhole(record.full);
    if (heap.carried.size) this.hasCarried = true;
    if (heap.links.size) this.hasLinks = true;
    if (record.looked) this.hasLooked = true;
    if (heap.phase) this.hasCycle = true;
    if (heap.awaiting) this.hasForgotten = true;
    if (heap.sum.held > heap.sum.reached) this.hasTouched = true;
    if (record.free?.length) this.hasFreed = true;
  }

  // An object's pages are used as far as it goes.
  noteObject([place, , words]) {
    const end = words > MOST_SMALL ? PAGE : wordInPage(place) + words;
    for (const p of pagesUnder({ place, words })) {
      if (!this.pages.has(p)) this.pages.set(p, new Map());
      const ends = this.pages.get(p);
      if ((ends.get(words) || 0) < end) ends.set(words, end);
    }
  }

  // the registers of a mutator that are ever used
  registersOf(slot) {
    if (!this.registers.has(slot)) {
      this.registers.set(slot, new Set());
      this.depth.set(slot, 0);
    }
    return this.registers.get(slot);
  }

  noteRoots(heap, record) {
    for (const slot of record.attach || []) this.registersOf(slot);
    for (const [slot, n] of record.regs || []) this.registersOf(slot).add(n);
    for (const [slot] of record.stacks || []) {
      this.depth.set(slot, Math.max(this.depth.get(slot), heap.mutators.get(slot).stack.length));
    }
    for (const [n] of record.globals || []) this.globals.add(n);
  }

  noteWhole(whole) {
    for (const object of whole.objects) this.noteObject(object);
    for (const [slot, regs, stack] of whole.mutators) {
      const used = this.registersOf(slot);
      regs.forEach((word, n) => word !== 0 && used.add(n));
      this.depth.set(slot, stack.length);
    }
    for (const [n] of whole.globals) this.globals.add(n);
  }
}
