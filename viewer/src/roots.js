'use strict';
// The roots and the mark stack, in a column of their own. Each word that is shown is noted with the point where its
// arrow begins.

const STACK_ROOM = 256;

function drawRoots() {
  view.anchors = [];
  const fresh = freshRoots(run.record);
  const out = plan.roots.map((row) => DRAW_ROOT[row.type](row, heap.mutators.get(row.slot), fresh)).join('');
  return plan.hasEntries ? out + drawEntries() : out;
}

const pointDot = (x, y, word, r) => {
  if (!isInHeap(word)) return '';
  return circle(heap.find(word) ? 'ptr' : 'stray', x, y, r);
};

// Notes a word that is shown in the column; its point and its box are where they stand with the column's shift.
function note(key, word, says, x, y, area) {
  const shift = view.rootsShift;
  const [left, top, w, h] = area;
  view.anchors.push({ key, word, says, x, y: y + shift, box: [left, top + shift, w, h] });
}

// a word in a row of its own, with its name
function drawRow(y, name, key, word, says, fresh) {
  const w = plan.rootsW;
  note(key, word, says, w - 7, y + 8, [0, y, w, 15]);
  return (fresh.has(key) ? path('rnew', box(1, y + 0.5, w - 2, 14.5)) : '') +
    label(4, y + 12, 'soft', name) +
    (word === 0 ? '' : label(w - 15, y + 12, 'end mono', told(word))) +
    pointDot(w - 7, y + 8, word, 3);
}

// a word in a small box of a grid
function drawBox(area, key, word, says, fresh) {
  const [x, y, w, h] = area;
  const middle = y + h / 2;
  note(key, word, says, x + w / 2, middle, area);
  const frame = path(fresh.has(key) ? 'rnew' : 'rbox', box(x + 1, y + 1, w - 2, h - 2));
  if (isInHeap(word)) return frame + pointDot(x + w / 2, middle, word, 2.6);
  return word === 0 ? frame : frame + path('value', `M${x + 4} ${middle}h${w - 8}`);
}

const saysRegister = (slot, n) => `register ${n} of mutator ${slot}`;
const saysStack = (slot, below) => `stack of mutator ${slot}, ${below} below its top`;

// A row of the column for each type that the plan has.
const DRAW_ROOT = {
  head({ slot, y }, mutator) {
    return label(2, y + 12, mutator ? 'b' : 'soft', `mutator ${slot}${mutator ? '' : ', not there'}`);
  },
  reg({ slot, n, y }, mutator, fresh) {
    if (!mutator) return '';
    return drawRow(y, 'r' + n, `r${slot}.${n}`, mutator.regs[n], saysRegister(slot, n), fresh);
  },
  grid({ slot, y }, mutator, fresh) {
    if (!mutator) return '';
    const w = plan.rootsW / 8;
    const area = (n) => [(n % 8) * w, y + (n < 8 ? 0 : 17), w, 17];
    const draw = (word, n) => drawBox(area(n), `r${slot}.${n}`, word, saysRegister(slot, n), fresh);
    return mutator.regs.map(draw).join('');
  },
  stackhead({ y }, mutator) {
    const n = mutator ? mutator.stack.length : 0;
    return label(4, y + 11, 'soft', `stack${n ? `, ${n} deep` : ', empty'}`);
  },
  stack({ slot, below, y }, mutator, fresh) {
    const i = mutator ? mutator.stack.length - 1 - below : -1;
    if (i < 0) return '';
    return drawRow(y, below ? `-${below}` : 'top', `s${slot}.${i}`, mutator.stack[i], saysStack(slot, below), fresh);
  },
  stackgrid({ slot, y }, mutator, fresh) {
    const n = mutator ? mutator.stack.length : 0;
    const shown = Math.min(n, Math.max(1, Math.floor((plan.rootsW - 58) / 12)));
    let out = label(2, y + 12, 'soft', 'stack ' + n);
    for (let below = 0; below < shown; below++) {
      const i = n - 1 - below;
      const area = [58 + below * 12, y + 1, 12, 15];
      out += drawBox(area, `s${slot}.${i}`, mutator.stack[i], saysStack(slot, below), fresh);
    }
    return out;
  },
  globalhead({ y }) {
    return label(2, y + 12, 'b', 'globals');
  },
  global({ n, y }, _, fresh) {
    return drawRow(y, 'g' + n, 'g' + n, heap.globals[n], 'global ' + n, fresh);
  },
  globalgrid({ list, y }, _, fresh) {
    const w = plan.rootsW / 8;
    return list.map((n, i) => drawBox([i * w, y, w, 16], 'g' + n, heap.globals[n], 'global ' + n, fresh)).join('');
  },
};

// -- the mark stack

const numberAt = (place) => (heap.objects.has(place) ? named(place) : 'none');

function drawEntries() {
  const n = heap.entries.length;
  const shown = Math.min(plan.entryRows, n);
  let y = plan.entriesY + 4;
  let out = drawMeter(y, n);
  y += 26;
  if (heap.current) out += label(4, y + 10, 'soft', currentText());
  y += 15;
  for (let below = 0; below < shown; below++, y += 15) {
    if (below === plan.entryRows - 1 && n > plan.entryRows) {
      return out + label(plan.rootsW - 15, y + 10, 'end soft', `and ${n - below} below`);
    }
    out += drawEntry(n - 1 - below, below, y);
  }
  return out;
}

// how full the mark stack is
function drawMeter(y, n) {
  const w = plan.rootsW;
  const filled = Math.max(2, ((w - 7) * n) / STACK_ROOM);
  return label(2, y + 10, 'b', 'mark stack') +
    label(w - 4, y + 10, 'soft end', w < 130 ? n : `${n} of ${STACK_ROOM}`) +
    path('rbox', box(2.5, y + 15.5, w - 6, 6)) +
    (n ? path('meter', box(3, y + 16, filled, 5)) : '');
}

function currentText() {
  const text = `${numberAt(heap.current[0])}, word ${heap.current[1]}`;
  return measure('reads ' + text) < plan.rootsW - 8 ? 'reads ' + text : text;
}

function drawEntry(i, below, y) {
  const [place, next] = heap.entries[i];
  const w = plan.rootsW;
  note('e' + i, addressOf(place), 'entry of the mark stack', w - 7, y + 7, [0, y - 1, w, 14]);
  return label(4, y + 10, 'soft', below ? '' : 'top') +
    label(w - 15, y + 10, 'end mono', numberAt(place) + (next ? ` from ${next}` : ''));
}

const isEntryKey = (key) => key[0] === 'e';
