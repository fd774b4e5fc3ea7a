// A trace of 40 pages, each with one large object, in three lists: more pages than stand in a window, and no map.
const FIRST = 268435456;
const PAGES = 40;

const line = (c, r, changes) => JSON.stringify({ c, r, ...changes });

export function manyPages() {
  const out = [JSON.stringify({ mpheap: 'trace', version: 1, title: '40 pages', pages: PAGES, source: 'the test' })];
  for (const slot of [0, 1, 2]) out.push(line('attach', `mutator ${slot}`, { attach: [slot] }));
  const heads = [0, 0, 0];
  for (let p = 0; p < PAGES; p++) {
    const slot = p % 3;
    const base = FIRST + 4096 * p;
    const made = { new: [[512 * p, p + 1, 512, 0]], reached: { '+': [512 * p] }, regs: [[slot, 9, base]] };
    out.push(line(`${slot} alloc 9 300 normal`, 'ok', made));
    out.push(line(`${slot} store 9 0 1`, 'ok', heads[slot] ? { wrote: [[512 * p, heads[slot]]] } : {}));
    out.push(line(`${slot} copy 1 9`, 'ok', { regs: [[slot, 1, base]] }));
    heads[slot] = base;
  }
  return out.join('\n') + '\n';
}
