'use strict';
// The run: all lines once, forwards, for what the plot shows and what is ever used. On this way a snapshot is kept every
// so many lines, and else nothing of the state: the lines of the trace stay text, and are read when they are shown. A
// line's state is the one after it; line 0 is before the first.

const SERIES = [
  'reached', 'held', 'kept', 'taken', 'marked', 'entries', 'dirty', 'carried', 'pending', 'pause', 'phase',
];
const ENDS_A_CYCLE = /^gc (finish|collect)$/;
const BLOCK = 500; // lines from one snapshot to the next
const MOST_READ = 2000; // so many lines that were read are kept

class Run {
  constructor(text) {
    const [about, ...lines] = text.split('\n').filter((line) => line.trim() !== '');
    this.about = about && JSON.parse(about);
    if (!this.about || this.about.mpheap !== 'trace' || this.about.version !== 1) {
      throw new Error('not a trace of version 1');
    }
    this.hasCollector = this.about.collector !== 0; // the trace says what the collector knows
    this.lines = lines;
    this.last = lines.length;
    this.read = new Map(); // line -> its record, for those that were read lately
    this.work = { read: 0, changed: 0, restored: 0 }; // lines read and made, and snapshots gone to, since the beginning
    this.heap = new Heap(this.about.pages);
    this.series = Object.fromEntries(SERIES.map((name) => [name, new Float64Array(this.last + 1)]));
    this.ever = new Ever();
    this.writes = new Writes(this.last);
    this.ofCollector = new Uint8Array(this.last + 1);
    this.snapshots = [takeSnapshot(this.heap)];
    this.firstPass();
    this.at = this.last;
    this.back = []; // changes that take back the lines up to this one, the last line's last
  }

  firstPass() {
    for (let i = 1; i <= this.last; i++) {
      const record = JSON.parse(this.lines[i - 1]);
      applyRecord(this.heap, record);
      this.noteSeries(i, record);
      this.ever.note(this.heap, record, i === 1);
      this.writes.note(i, record, i === 1);
      this.ofCollector[i] = /^gc /.test(record.c) ? 1 : 0;
      if (i % BLOCK === 0) this.snapshots.push(takeSnapshot(this.heap));
      if (i === this.last) this.isRefused = 'no' in record; // of a run: its last line isn't legal
    }
  }

  noteSeries(i, record) {
    const { heap, series } = this;
    series.reached[i] = heap.sum.reached;
    series.held[i] = heap.sum.held;
    series.kept[i] = heap.sum.kept;
    series.taken[i] = heap.sum.kept + heap.sum.forgotten;
    series.entries[i] = heap.entries.length;
    series.phase[i] = heap.phase;
    for (const name of ['marked', 'dirty', 'carried', 'pending']) series[name][i] = heap[name].size;
    if (ENDS_A_CYCLE.test(record.c) && record.read) series.pause[i] = record.read[1];
  }

  get record() {
    return this.recordOf(this.at);
  }

  recordOf(i) {
    if (i === 0) return { c: '', r: '' };
    if (!this.read.has(i)) {
      if (this.read.size >= MOST_READ) this.read.clear();
      this.read.set(i, JSON.parse(this.lines[i - 1]));
      this.work.read++;
    }
    return this.read.get(i);
  }

  // Goes to a line: by the changes between where they are near, and else from the snapshot before it.
  go(line) {
    line = Math.max(0, Math.min(this.last, line));
    const isNearOn = line >= this.at && line - this.at <= BLOCK;
    const isKept = line < this.at && this.at - line <= this.back.length;
    if (!isNearOn && !isKept) this.restoreBefore(line);
    while (this.at < line) this.stepOn();
    while (this.at > line) this.stepBack();
    return line;
  }

  restoreBefore(line) {
    const n = Math.floor(line / BLOCK);
    restore(this.heap, this.snapshots[n]);
    this.at = n * BLOCK;
    this.back = [];
    this.work.restored++;
  }

  stepOn() {
    this.back.push(applyRecord(this.heap, this.recordOf(++this.at)));
    if (this.back.length > 2 * BLOCK) this.back.splice(0, BLOCK);
    this.work.changed++;
  }

  stepBack() {
    for (const change of this.back.pop()) this.heap.put(change);
    if (--this.at === 0) this.heap.hasBegun = false;
    this.work.changed++;
  }
}
