// A trace of 100,000 lines on 64 pages, made here, with what it says of each state kept beside it: lists that grow in eight
// cells of each page and are dropped, with a full collection at the end of each round. So what is expected after any line
// is counted, and not read from the trace.
const FIRST = 268435456;
const CELLS = 8;
const ROUND = 3 * CELLS + 2; // lines on one page: alloc, store, copy for each cell; then all is let go, and collected

const line = (c, r, changes) => JSON.stringify({ c, r, ...changes });
const baseOf = (page, cell) => 512 * page + 4 * cell;
const addressOf = (place) => FIRST + 8 * place;

function* round(n) {
  const page = n % 64;
  const bases = [...Array(CELLS).keys()].map((cell) => baseOf(page, cell));
  for (const [cell, base] of bases.entries()) {
    const birth = n * CELLS + cell + 1;
    const address = addressOf(base);
    const made = { new: [[base, birth, 4, 0]], reached: { '+': [base] }, regs: [[0, 2, address]] };
    yield line('0 alloc 2 4 normal', 'ok', cell ? made : { ...made, regs: [[0, 2, address], [0, 1, 0]] });
    yield line('0 store 2 0 1', 'ok', { wrote: [[base, cell ? addressOf(bases[cell - 1]) : 0], [base + 1, birth]] });
    yield line('0 copy 1 2', 'ok', { regs: [[0, 1, address]] });
  }
  yield line('0 set 2 0', 'ok', { regs: [[0, 2, 0], [0, 1, 0]], reached: { '=': [] } });
  yield line('gc collect', String(CELLS), { free: bases, count: n + 1 });
}

export function manyLines(lines = 100000) {
  const title = `${lines} lines`;
  const out = [JSON.stringify({ mpheap: 'trace', version: 1, title, pages: 64, source: 'the test' })];
  out.push(line('attach', 'mutator 0', { attach: [0] }));
  for (let n = 0; out.length <= lines; n++) out.push(...round(n));
  return out.slice(0, lines + 1).join('\n') + '\n';
}

// What stands after a line: the objects by their bases, the words of the last one, and the line that stored its number.
export function expectedAfter(i) {
  if (i < 2) return { objects: [], words: [], stored: 0 };
  const n = Math.floor((i - 2) / ROUND);
  const done = (i - 2) % ROUND;
  if (done === ROUND - 1) return { objects: [], words: [], stored: 0 };
  const cells = Math.min(CELLS, Math.floor(done / 3) + 1);
  const objects = [...Array(cells).keys()].map((cell) => baseOf(n % 64, cell));
  const isStored = done >= 3 * CELLS || done % 3 > 0;
  const words = isStored ? [cells > 1 ? addressOf(objects.at(-2)) : 0, n * CELLS + cells, 0, 0] : [0, 0, 0, 0];
  return { objects, words, stored: isStored ? n * ROUND + 3 * cells : 0 };
}
