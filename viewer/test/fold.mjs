// The state after each line of a trace, folded with nothing but docs/TRACE.md in hand: the oracle of what the page
// shows. On the way it is looked at what every run of the heap obeys.
import assert from 'node:assert/strict';

const SETS = ['marked', 'reached', 'touched', 'dirty', 'carried', 'pending'];
const byFirst = (a, b) => a[0] - b[0];

function emptyState() {
  const state = { phase: 0, count: 0, entries: [], current: null };
  for (const name of ['objects', 'words', 'mutators', 'globals', 'links']) state[name] = new Map();
  for (const name of SETS) state[name] = new Set();
  return state;
}

// a state in the form of `full`, as it stands now
function written(state) {
  const objects = [...state.objects].sort(byFirst);
  const words = [];
  for (const [place, [, n, , isForgotten]] of objects) {
    for (let i = place; i < place + n && !isForgotten; i++) if (state.words.get(i)) words.push([i, state.words.get(i)]);
  }
  const out = { phase: state.phase, count: state.count, objects: objects.map(([place, rest]) => [place, ...rest]) };
  for (const name of SETS) out[name] = [...state[name]].sort((a, b) => a - b);
  return structuredClone({
    ...out,
    entries: state.entries,
    current: state.current,
    mutators: [...state.mutators].sort(byFirst).map(([slot, { regs, stack }]) => [slot, regs, stack]),
    globals: [...state.globals].filter(([, word]) => word !== 0).sort(byFirst),
    links: [...state.links].sort(byFirst),
    words,
  });
}

function begin(state, full) {
  for (const [place, ...rest] of full.objects) state.objects.set(place, rest);
  for (const name of SETS) state[name] = new Set(full[name]);
  for (const [slot, regs, stack] of full.mutators) state.mutators.set(slot, { regs: [...regs], stack: [...stack] });
  for (const name of ['globals', 'links', 'words']) state[name] = new Map(full[name]);
  for (const name of ['entries', 'current', 'phase', 'count']) state[name] = full[name];
}

function changeObjects(state, record) {
  for (const slot of record.attach || []) state.mutators.set(slot, { regs: Array(16).fill(0), stack: [] });
  for (const slot of record.detach || []) state.mutators.delete(slot);
  for (const place of record.forget || []) state.objects.get(place)[3] = 1;
  for (const place of record.free || []) state.objects.delete(place);
  for (const [place, birth, n, kind] of record.new || []) {
    state.objects.set(place, [birth, n, kind, 0]);
    for (let i = place; i < place + n; i++) state.words.delete(i);
  }
}

function changeSets(state, record) {
  for (const name of SETS) {
    const change = record[name];
    if (!change) continue;
    if (change['=']) state[name] = new Set(change['='] === 'reached' ? state.reached : change['=']);
    for (const x of change['-'] || []) state[name].delete(x);
    for (const x of change['+'] || []) state[name].add(x);
  }
}

function changeRest(state, record) {
  for (const [place, word] of record.wrote || []) state.words.set(place, word);
  for (const [slot, n, word] of record.regs || []) state.mutators.get(slot).regs[n] = word;
  for (const [slot, keep, ...pushed] of record.stacks || []) {
    const mutator = state.mutators.get(slot);
    mutator.stack = mutator.stack.slice(0, keep).concat(pushed);
  }
  for (const [n, word] of record.globals || []) state.globals.set(n, word);
  for (const [place, base] of record.links || []) {
    if (base === null) state.links.delete(place);
    else state.links.set(place, base);
  }
  if (record.entries) state.entries = state.entries.slice(0, record.entries[0]).concat(record.entries.slice(1));
  for (const name of ['current', 'phase', 'count']) if (name in record) state[name] = record[name];
}

const within = (some, all, what) => {
  for (const x of some) assert(all.has(x), what);
};

// A collection keeps what is reached, and answers how many went; what is reached or marked in a cycle is touched.
function obeys(state, record, forgottenBefore, hasCollector) {
  if (state.phase) {
    within(state.reached, state.touched, 'reached is touched');
    within(state.marked, state.touched, 'marked is touched');
  }
  if (!/^gc (finish|collect)$/.test(record.c) || /^refused/.test(record.r)) return;
  const kept = new Set([...state.objects].filter(([, rest]) => !rest[3]).map(([place]) => place));
  within(state.reached, kept, 'a reached object is kept');
  if (hasCollector) within(kept, state.marked, 'what a collection keeps is marked');
  if (record.c === 'gc collect') within(kept, state.reached, 'a full collection keeps what is reached alone');
  const gone = (record.forget || []).length + (record.free || []).filter((place) => !forgottenBefore.has(place)).length;
  assert.equal(String(gone), record.r, 'the number that the collection answers');
}

// The words that a line read are words of marked normal objects, as many as it says.
function readsMarked(state, record) {
  if (!record.looked) return;
  const inside = (place, n) => {
    for (const [base, [, words, kind]] of state.objects) {
      if (!kind && state.marked.has(base) && place >= base && place + n <= base + words) return true;
    }
    return false;
  };
  for (const [place, n] of record.looked) assert(inside(place, n), `${n} words from ${place} are a marked object's`);
  assert.equal(record.looked.reduce((sum, [, n]) => sum + n, 0), record.read[1], 'how many words were read');
}

// The states after these lines, by their numbers. A line that is refused changes nothing.
export function fold(lines, wanted, hasCollector = true) {
  const state = emptyState();
  const states = new Map();
  const keep = (i) => wanted.has(i) && states.set(i, written(state));
  keep(0);
  lines.forEach((record, n) => {
    const forgotten = new Set([...state.objects].filter(([, rest]) => rest[3]).map(([place]) => place));
    try {
      if (n === 0 && record.full) begin(state, record.full);
      else if (!record.no) {
        changeObjects(state, record);
        changeSets(state, record);
        changeRest(state, record);
        obeys(state, record, forgotten, hasCollector);
        readsMarked(state, record);
      }
    } catch (error) {
      error.message = `line ${n + 1} of the trace: ${error.message}`;
      throw error;
    }
    keep(n + 1);
  });
  return states;
}
