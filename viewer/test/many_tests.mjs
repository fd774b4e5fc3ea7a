// Of a run of 100,000 lines: what the page keeps of it, and how much work a step is, by counts; and it tells the time
// that opening and stepping take, of the processor, so that other work on the machine adds none.
import assert from 'node:assert/strict';
import { expectedAfter } from './many_lines.mjs';

const LINES = 100000;
const BLOCK = 500;

const WORK = `({ ...viewer.run.work, at: viewer.at() })`;

// the work that an expression makes
async function workOf(page, expression) {
  const before = await page.run(WORK);
  await page.run(expression);
  const after = await page.run(WORK);
  return { read: after.read - before.read, changed: after.changed - before.changed, restored: after.restored - before.restored };
}

// A snapshot every so many lines, and else no state; few lines are read, and few rows made.
async function keepsLittle(page) {
  const kept = await page.run(`({ snapshots: viewer.run.snapshots.length, back: viewer.run.back.length,
    read: viewer.run.read.size, changed: viewer.run.work.changed, rows: document.querySelectorAll('.row').length })`);
  assert.deepEqual([kept.snapshots, kept.back, kept.changed], [LINES / BLOCK + 1, 0, 0], JSON.stringify(kept));
  assert.ok(kept.read <= 100 && kept.rows <= 100, `at the beginning: ${JSON.stringify(kept)}`);
}

// A step makes one change, and reads no more lines than come into sight; a jump makes those since a snapshot.
async function stepsAreSmall(page) {
  const jump = await workOf(page, 'viewer.go(60321)');
  assert.ok(jump.restored === 1 && jump.changed === 321 && jump.read <= 321 + 150, `a jump: ${JSON.stringify(jump)}`);
  for (let i = 0; i < 5; i++) {
    const on = await workOf(page, 'viewer.go(viewer.at() + 1)');
    assert.ok(on.restored === 0 && on.changed === 1 && on.read <= 5, `a step on: ${JSON.stringify(on)}`);
    const back = await workOf(page, 'viewer.go(viewer.at() - 1)');
    assert.ok(back.restored === 0 && back.changed === 1 && back.read <= 5, `a step back: ${JSON.stringify(back)}`);
  }
  const far = await workOf(page, 'for (let i = 0; i < 700; i++) run.at = run.go(run.at - 1)');
  assert.ok(far.restored <= 2 && far.changed <= 700 + 2 * BLOCK, `700 steps back: ${JSON.stringify(far)}`);
  const on = await workOf(page, 'for (let i = 0; i < 3000; i++) run.at = run.go(run.at + 1)');
  assert.deepEqual([on.restored, on.changed], [0, 3000], '3000 steps on');
  const { back, read } = await page.run('({ back: run.back.length, read: run.read.size })');
  assert.ok(back <= 2 * BLOCK && read <= 2000, `kept after 3000 steps: ${back} ways back, ${read} lines`);
}

// Each line leads to the state that was counted where the trace was made, from wherever it is gone to.
async function statesAreCounted(page) {
  for (const line of [1, 2, 499, 500, 501, 26001, 99999, 77, 60000, 59999, 59500, 59499, 60501, 0, 100000]) {
    const wanted = expectedAfter(line);
    const seen = await page.run(`(() => {
      viewer.go(${line});
      const objects = [...heap.objects.keys()].sort((a, b) => a - b);
      const base = objects.at(-1);
      const has = base !== undefined;
      return { objects, words: has ? [0, 1, 2, 3].map((i) => heap.word(base + i)) : [],
        stored: has ? run.writes.last(base + 1, run.at) : 0 };
    })()`);
    const isNew = wanted.words.length && wanted.words[1] === 0; // what an earlier round stored there isn't asked
    assert.deepEqual(isNew ? { ...seen, stored: 0 } : seen, wanted, `after line ${line}`);
  }
}

// How long it takes to open, and to draw a step, is told and not tested: the goals are two seconds and a twentieth.
async function tellsTimes(page) {
  const opened = await page.seconds();
  const steps = 40;
  const frames = `(async () => {
    for (let i = 0; i < ${steps}; i++) {
      viewer.go(viewer.at() + 1);
      await new Promise(requestAnimationFrame);
    }
  })()`;
  await page.run('viewer.go(50000)');
  const before = await page.seconds();
  await page.run(frames);
  const step = ((await page.seconds()) - before) / steps;
  console.log(`viewer: many lines: opened in ${opened.toFixed(2)} s of the processor, a step in ${(1000 * step).toFixed(1)} ms`);
}

export const manyTests = { keepsLittle, tellsTimes, stepsAreSmall, statesAreCounted };
