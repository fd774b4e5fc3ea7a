'use strict';
// Which line wrote a word last: one list of what each line wrote, in the order of the lines, and where each line's part
// begins. What is written is told by a number: a word of the heap by its place, all else by a number past these.

const AS_MADE = 2 ** 26; // and the place of an object that comes
const AS_REGISTER = 2 ** 27; // and 16 * slot + register
const AS_GLOBAL = 2 ** 27 + 2 ** 16; // and the global
const AS_STACK = 2 ** 28; // and 2 ** 20 * slot + the word, counted from the bottom

const keyOfMade = (place) => AS_MADE + place;

// the number of a root that the column names `r1.2`, `s1.2` or `g2`
function keyOfRoot(key) {
  const [first, second] = key.slice(1).split('.').map(Number);
  if (key[0] === 'r') return AS_REGISTER + 16 * first + second;
  return key[0] === 's' ? AS_STACK + 2 ** 20 * first + second : AS_GLOBAL + first;
}

class Writes {
  constructor(lines) {
    this.keys = [];
    this.start = new Float64Array(lines + 2);
  }

  // Notes what the record of a line writes; lines are told in their order.
  note(line, record, isFirst) {
    const { keys } = this;
    for (const [place] of record.new || []) keys.push(keyOfMade(place));
    for (const [place] of record.wrote || []) keys.push(place);
    for (const [slot, n] of record.regs || []) keys.push(AS_REGISTER + 16 * slot + n);
    for (const [slot, keep, ...pushed] of record.stacks || []) {
      pushed.forEach((_, i) => keys.push(AS_STACK + 2 ** 20 * slot + keep + i));
    }
    for (const [n] of record.globals || []) keys.push(AS_GLOBAL + n);
    if (isFirst && record.full) this.noteWhole(record.full);
    this.start[line + 1] = keys.length;
  }

  noteWhole({ objects, words, globals }) {
    for (const [place] of objects) this.keys.push(keyOfMade(place));
    for (const [place] of words) this.keys.push(place);
    for (const [n] of globals) this.keys.push(AS_GLOBAL + n);
  }

  // the last line up to this one that wrote it; 0 where none did
  last(key, line) {
    const at = this.keys.lastIndexOf(key, this.start[line + 1] - 1);
    if (at < 0 || this.start[line + 1] === 0) return 0;
    return this.lineOf(at, line);
  }

  // the line whose part of the list has this index
  lineOf(at, line) {
    let low = 0;
    let high = line;
    while (low < high) {
      const middle = (low + high) >> 1;
      if (this.start[middle + 1] > at) high = middle;
      else low = middle + 1;
    }
    return low;
  }
}
