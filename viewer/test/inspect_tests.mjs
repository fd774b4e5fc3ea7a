// What a pointer finds in the picture, and what the inspector says of it, beside a count of the tests' own.
import assert from 'node:assert/strict';

// Each cell of the pages answers to the pointer with its own object.
const MISSED = `(() => {
  const scene = $('scene').getBoundingClientRect();
  const missed = [];
  for (const object of [...heap.objects.values()].slice(0, 2000)) {
    const s = spot(object.place);
    const found = s && under({ clientX: scene.left + s.x + 1, clientY: scene.top + s.y + 3 });
    if (s && found?.place !== object.place) missed.push([object.place, found]);
  }
  return missed.slice(0, 5);
})()`;

export async function pointed(page, { walk }) {
  for (const i of walk) {
    await page.run(`viewer.go(${i})`);
    assert.deepEqual(await page.run(MISSED), [], `objects under the pointer after line ${i}`);
  }
}

const SEEN_OBJECT = `(() => {
  $('scroll').scrollTop = 0;
  const scene = $('scene').getBoundingClientRect();
  const bottom = $('scroll').getBoundingClientRect().bottom;
  for (const object of heap.objects.values()) {
    const s = object.forgotten ? null : spot(object.place);
    if (s && scene.top + s.y + 4 < bottom) return [object.place, scene.left + s.x + 2, scene.top + s.y + 4];
  }
  return null;
})()`;

// how many root words and words of normal kept objects point into an object, by a count of the tests' own
function countPointers({ globals, mutators, words, objects }, place, n) {
  const low = 268435456 + 8 * place;
  const isIn = (word) => typeof word === 'number' && word >= low && word < low + 8 * n;
  const normal = objects.filter(([, , , kind, isGone]) => !kind && !isGone);
  const isRead = (i) => normal.some(([base, , size]) => i >= base && i < base + size);
  const roots = [...globals.map(([, word]) => word), ...mutators.flatMap(([, regs, stack]) => [...regs, ...stack])];
  return roots.filter(isIn).length + words.filter(([i, word]) => isIn(word) && isRead(i)).length;
}

export async function inspected(page, { about, n, states }) {
  const i = Math.floor(n / 2);
  await page.run(`viewer.go(${i})`);
  const seen = await page.run(SEEN_OBJECT);
  if (!seen) return;
  const [place, x, y] = seen;
  const state = states.get(i);
  const [, birth, words, kind] = state.objects.find(([base]) => base === place);
  await page.click(x, y);
  const said = await page.run(`$('info').innerText`);
  const isMarked = state.marked.includes(place);
  const wanted = [`#${birth}`, 268435456 + 8 * place, `page ${place >> 9}, word ${place & 511}`];
  const known = about.collector === 0 ? [] : [isMarked ? 'marked' : 'not marked'];
  for (const text of [...wanted, kind ? 'atomic' : 'normal', ...known]) {
    assert.ok(said.includes(String(text)), `the inspector lacks ${text}: ${said}`);
  }
  assert.equal(countListed(said), countPointers(state, place, words), `who points to the object: ${said}`);
  await page.key('Escape');
  assert.ok((await page.run(`$('info').innerText`)).startsWith(`After line ${i}`), 'the selection is let go');
}

// how many the inspector names, or says that there are more
function countListed(said) {
  const list = /from\s+([^]*?)\nwords/.exec(said)[1];
  if (/nothing points/.test(list)) return 0;
  const more = /and (\d+) more/.exec(list);
  return list.split('; ').length + (more ? Number(more[1]) - 1 : 0);
}
