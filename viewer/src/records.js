'use strict';
// What a record of the trace changes in the heap, in the order that docs/TRACE.md gives.

// Makes the changes of a record and answers those that take them back, the last first.
function applyRecord(heap, record) {
  const back = [];
  const put = (...change) => {
    const undone = heap.put(change);
    if (undone) back.push(undone);
  };
  const isStart = !heap.hasBegun;
  heap.hasBegun = true;
  if (isStart && record.full) applyWhole(record.full, put);
  else applyDifferences(heap, record, put);
  return back.reverse();
}

function applyDifferences(heap, record, put) {
  for (const slot of record.attach || []) put('mutator', slot, { regs: new Array(16).fill(0), stack: [] });
  for (const slot of record.detach || []) put('mutator', slot, null);
  leaveSets(record, put);
  for (const place of record.forget || []) put('object', place, { ...heap.objects.get(place), forgotten: true });
  for (const place of record.free || []) put('object', place, null);
  for (const made of record.new || []) makeObject(heap, made, put);
  enterSets(heap, record, put);
  applyWords(heap, record, put);
  applyCollector(heap, record, put);
}

function leaveSets(record, put) {
  for (const name of SETS) {
    for (const x of record[name]?.['-'] || []) put('member', name, x, false);
  }
}

function enterSets(heap, record, put) {
  for (const name of SETS) {
    const whole = record[name]?.['='];
    if (whole) put('set', name, new Set(whole === 'reached' ? heap.reached : whole));
    for (const x of record[name]?.['+'] || []) put('member', name, x, true);
  }
}

// An object comes with words of 0.
function makeObject(heap, [place, birth, words, kind], put) {
  for (let i = place; i < place + words; i++) {
    if (heap.word(i) !== 0) put('word', i, 0);
  }
  put('object', place, { place, birth, words, kind, forgotten: false });
}

function applyWords(heap, record, put) {
  for (const [place, word] of record.wrote || []) put('word', place, word);
  for (const [slot, n, word] of record.regs || []) put('reg', slot, n, word);
  for (const [slot, keep, ...pushed] of record.stacks || []) {
    put('stack', slot, heap.mutators.get(slot).stack.slice(0, keep).concat(pushed));
  }
  for (const [n, word] of record.globals || []) put('global', n, word);
  for (const [place, base] of record.links || []) put('link', place, base);
}

function applyCollector(heap, record, put) {
  if (record.entries) {
    const [keep, ...pushed] = record.entries;
    put('entries', heap.entries.slice(0, keep).concat(pushed));
  }
  if ('current' in record) put('plain', 'current', record.current);
  if ('phase' in record) {
    heap.spoilAll('touched', heap.touched);
    put('plain', 'phase', record.phase);
  }
  if ('count' in record) put('plain', 'count', record.count);
}

// A trace may begin with a whole state instead of an empty heap.
function applyWhole(whole, put) {
  for (const [place, birth, words, kind, forgotten] of whole.objects) {
    put('object', place, { place, birth, words, kind, forgotten: !!forgotten });
  }
  for (const name of SETS) put('set', name, new Set(whole[name]));
  for (const [slot, regs, stack] of whole.mutators) put('mutator', slot, { regs: regs.slice(), stack: stack.slice() });
  for (const [n, word] of whole.globals) put('global', n, word);
  for (const [place, base] of whole.links) put('link', place, base);
  for (const [place, word] of whole.words) put('word', place, word);
  put('entries', whole.entries);
  for (const name of ['current', 'phase', 'count']) put('plain', name, whole[name]);
}

// The words of kept objects that aren't 0, as [place, word].
function keptWords(heap, objects) {
  const words = [];
  for (const object of objects) {
    if (object.forgotten) continue;
    for (let i = object.place; i < object.place + object.words; i++) {
      if (heap.word(i) !== 0) words.push([i, heap.word(i)]);
    }
  }
  return words;
}

// The state in the form of a trace's `full`, for tests.
function wholeState(heap) {
  const byFirst = (a, b) => a[0] - b[0];
  const objects = [...heap.objects.values()].sort((a, b) => a.place - b.place);
  const state = {
    phase: heap.phase,
    count: heap.count,
    objects: objects.map((o) => [o.place, o.birth, o.words, o.kind, +o.forgotten]),
  };
  for (const name of SETS) state[name] = [...heap[name]].sort((a, b) => a - b);
  return {
    ...state,
    entries: heap.entries,
    current: heap.current,
    mutators: [...heap.mutators].sort(byFirst).map(([slot, m]) => [slot, m.regs.slice(), m.stack.slice()]),
    globals: heap.globals.map((word, n) => [n, word]).filter(([, word]) => word !== 0),
    links: [...heap.links].sort(byFirst),
    words: keptWords(heap, objects),
  };
}
