'use strict';
// The state of the heap after a line of the trace (docs/TRACE.md), changed by one change at a time.
// A place is the number of a word of the heap: address = 268435456 + 8 * place.

const FIRST = 268435456;
const PAGE_BITS = 9;
const PAGE = 1 << PAGE_BITS; // words of a page
const MOST_SMALL = 256; // words: a larger object has pages of its own
const GLOBALS = 64;
const SETS = ['marked', 'reached', 'touched', 'dirty', 'carried', 'pending'];
const SETS_OF_PAGES = new Set(['dirty', 'carried', 'pending']);

const pageOf = (place) => place >> PAGE_BITS;
const wordInPage = (place) => place & (PAGE - 1);
const addressOf = (place) => FIRST + 8 * place;
const placeOf = (address) => Math.floor((address - FIRST) / 8);

// the pages that an object lies on
function* pagesUnder(object) {
  for (let p = pageOf(object.place); p <= pageOf(object.place + object.words - 1); p++) yield p;
}

// Each makes one change and answers the change that takes it back, as a list: its name and what it is given.
const CHANGES = {
  object(heap, place, object) {
    const old = heap.objects.get(place) || null;
    if (old) heap.leaves(old);
    if (object) heap.comes(object);
    return ['object', place, old];
  },
  member(heap, name, x, isIn) {
    const was = heap[name].has(x);
    if (was === isIn) return null;
    if (isIn) heap[name].add(x);
    else heap[name].delete(x);
    if (SETS_OF_PAGES.has(name)) heap.stale.add(x);
    else heap.spoilAt(x);
    heap.countMember(name, x, isIn);
    return ['member', name, x, was];
  },
  set(heap, name, set) {
    const old = heap[name];
    heap.spoilAll(name, old);
    heap[name] = new Set(set); // a copy: what a change holds is never changed itself
    heap.spoilAll(name, set);
    heap.countSets(name);
    return ['set', name, old];
  },
  word(heap, place, word) {
    const old = heap.word(place);
    if (typeof word === 'string') heap.great.set(place, word);
    else heap.great.delete(place);
    heap.ownPage(pageOf(place))[wordInPage(place)] = typeof word === 'string' ? 0 : word;
    heap.stale.add(pageOf(place));
    return ['word', place, old];
  },
  reg(heap, slot, n, word) {
    const { regs } = heap.mutators.get(slot);
    const old = regs[n];
    regs[n] = word;
    return ['reg', slot, n, old];
  },
  stack(heap, slot, stack) {
    const mutator = heap.mutators.get(slot);
    const old = mutator.stack;
    mutator.stack = stack;
    return ['stack', slot, old];
  },
  global(heap, n, word) {
    const old = heap.globals[n];
    heap.globals[n] = word;
    return ['global', n, old];
  },
  mutator(heap, slot, mutator) {
    const old = heap.mutators.get(slot) || null;
    if (mutator) heap.mutators.set(slot, { regs: mutator.regs.slice(), stack: mutator.stack });
    else heap.mutators.delete(slot);
    return ['mutator', slot, old];
  },
  link(heap, place, base) {
    const old = heap.links.has(place) ? heap.links.get(place) : null;
    if (base === null) heap.links.delete(place);
    else heap.links.set(place, base);
    heap.stale.add(pageOf(place));
    return ['link', place, old];
  },
  entries(heap, entries) {
    const old = heap.entries;
    for (const [place] of old) heap.spoilAt(place);
    heap.entries = entries;
    for (const [place] of entries) heap.spoilAt(place);
    return ['entries', old];
  },
  plain(heap, name, value) {
    const old = heap[name];
    heap[name] = value;
    return ['plain', name, old];
  },
};

class Heap {
  constructor(pages) {
    this.pages = pages;
    this.words = pages * PAGE;
    this.phase = 0;
    this.count = 0;
    this.objects = new Map(); // place -> {place, birth, words, kind, forgotten}
    this.mutators = new Map(); // slot -> {regs, stack}
    this.globals = new Array(GLOBALS).fill(0);
    this.links = new Map(); // place of the word -> place of the named object
    this.entries = []; // [place, next word], the top last
    this.current = null;
    for (const name of SETS) this[name] = new Set();
    this.memory = new Array(pages); // page -> its words below 2^53, where one was written
    this.own = new Set(); // pages of memory that no snapshot shares
    this.great = new Map(); // place -> decimal text of a word of 2^53 and more
    this.cells = new Int32Array(pages); // how many cells or large objects lie on a page
    this.size = new Int32Array(pages); // words of each, where there are some
    this.atomic = new Uint8Array(pages);
    this.head = new Int32Array(pages).fill(-1); // first page of the large object there
    this.awaiting = 0; // how many forgotten objects are still to be swept
    this.sum = { reached: 0, held: 0, kept: 0, forgotten: 0 }; // words; held are those reached or touched
    this.stale = new Set(); // pages to be drawn again
    this.hasBegun = false; // a record was applied
  }

  word(place) {
    return this.great.get(place) || this.plainWord(place);
  }

  // a word that may point into something: one of 2^53 and more is 0 here
  plainWord(place) {
    const page = this.memory[pageOf(place)];
    return page ? page[wordInPage(place)] : 0;
  }

  // The words of a page, to be written: a copy where a snapshot has them too.
  ownPage(p) {
    if (!this.own.has(p)) {
      this.memory[p] = this.memory[p] ? this.memory[p].slice() : new Float64Array(PAGE);
      this.own.add(p);
    }
    return this.memory[p];
  }

  isInside(word) {
    return typeof word === 'number' && word >= FIRST && word < FIRST + 8 * this.words;
  }

  // the kept object that a word points into
  find(word) {
    if (!this.isInside(word)) return null;
    const object = this.objectOver(placeOf(word));
    return object && !object.forgotten ? object : null;
  }

  // the object whose cell or pages have this place
  objectOver(place) {
    const p = pageOf(place);
    if (this.head[p] >= 0) return this.objects.get(this.head[p] * PAGE) || null;
    if (!this.cells[p]) return null;
    const size = this.size[p];
    const start = p * PAGE;
    return this.objects.get(start + Math.floor((place - start) / size) * size) || null;
  }

  wordsAt(place) {
    const object = this.objects.get(place);
    return object ? object.words : 0;
  }

  // How many words are reached, and how many reached or touched, as a member comes or goes.
  countMember(name, x, isIn) {
    if (name !== 'reached' && name !== 'touched') return;
    const words = (isIn ? 1 : -1) * this.wordsAt(x);
    if (name === 'reached') this.sum.reached += words;
    if (!this[name === 'reached' ? 'touched' : 'reached'].has(x)) this.sum.held += words;
  }

  countSets(name) {
    if (name !== 'reached' && name !== 'touched') return;
    const { reached, touched } = this;
    let words = 0;
    for (const x of reached) words += this.wordsAt(x);
    this.sum.reached = words;
    for (const x of touched) if (!reached.has(x)) words += this.wordsAt(x);
    this.sum.held = words;
  }

  // What is drawn of an object, of a place, or of a set's members has to be drawn again.
  spoil(object) {
    for (const p of pagesUnder(object)) this.stale.add(p);
  }

  spoilAt(place) {
    const object = this.objects.get(place);
    if (object) this.spoil(object);
    else this.stale.add(pageOf(place));
  }

  spoilAll(name, set) {
    for (const x of set) {
      if (SETS_OF_PAGES.has(name)) this.stale.add(x);
      else this.spoilAt(x);
    }
  }

  // Makes one change and answers the change that takes it back.
  put([name, ...given]) {
    return CHANGES[name](this, ...given);
  }

  comes(object) {
    this.objects.set(object.place, object);
    this.sum[object.forgotten ? 'forgotten' : 'kept'] += object.words;
    if (object.forgotten) this.awaiting++;
    for (const p of pagesUnder(object)) {
      this.cells[p]++;
      this.size[p] = object.words;
      this.atomic[p] = object.kind;
      this.head[p] = object.words > MOST_SMALL ? pageOf(object.place) : -1;
      this.stale.add(p);
    }
  }

  leaves(object) {
    this.objects.delete(object.place);
    this.sum[object.forgotten ? 'forgotten' : 'kept'] -= object.words;
    if (object.forgotten) this.awaiting--;
    for (const p of pagesUnder(object)) {
      if (--this.cells[p] === 0) this.head[p] = -1;
      this.stale.add(p);
    }
  }
}
