// Two runs of the same script beside each other: a heap that keeps an object, and one that loses it. What is expected is
// read from the two traces and their folds.
import assert from 'node:assert/strict';
import { axeOfFrames } from './access_tests.mjs';
import { sleep } from './chromium.mjs';

const ats = (page) => page.run('[...document.querySelectorAll("iframe")].map((f) => f.contentWindow.viewer.at())');

const said = (page) => page.run(`[0, 1].map((i) => {
  const { $, viewer } = { $: (id) => frames[i].document.getElementById(id), viewer: frames[i].viewer };
  return { say: $('say').textContent, info: $('info').innerText, facts: $('facts').textContent, state: viewer.whole() };
})`);

async function goesTo(page, lines, what) {
  for (let look = 0; look < 100; look++) {
    if (String(await ats(page)) === String(lines)) return;
    await sleep(50);
  }
  assert.deepEqual(await ats(page), lines, what);
}

// Both open at the line at which one loses what the other keeps, and say so, each with what it comes from.
async function theMoment(page, [kept, lost]) {
  await page.waitFor('frames.length === 2 && frames[0].viewer && frames[1].viewer');
  await goesTo(page, [lost.n, lost.n], 'both open at the line that is refused');
  const { about, says, no } = lost.lines.at(-1);
  assert.equal(no, lost.n);
  assert.deepEqual(kept.lines.map(({ c }) => c), lost.lines.map(({ c }) => c), 'both traces are of the same script');
  const [one, other] = await said(page);
  const object = lost.states.get(lost.n).objects.find(([place]) => place === about);
  assert.ok(other.say.includes('is not legal') && other.say.includes(says.at(-1).split(/ at \d+/)[0]), other.say);
  assert.ok(other.info.startsWith(`Object #${object[1]}`), `the lost object is picked: ${other.info}`);
  assert.ok(one.state.objects.some(([place, birth, , , isGone]) => place === about && birth === object[1] && !isGone), 'it is kept');
  assert.ok(one.state.reached.includes(about) && one.state.marked.includes(about), 'it is reached, and marked');
  assert.ok(one.facts.includes(kept.about.source) && other.facts.includes(lost.about.source), 'each says from what it comes');
}

// A step by keys in one is a step in both.
async function inStep(page, [{ n }]) {
  await page.run('frames[0].focus(), frames[0].document.getElementById("list").focus()');
  await page.key('ArrowLeft');
  await goesTo(page, [n - 1, n - 1], 'a step back in the first');
  await page.run('frames[1].focus(), frames[1].document.getElementById("list").focus()');
  await page.key('Home');
  await goesTo(page, [0, 0], 'to the start in the second');
  await page.run('location.hash = "#line=7"');
  await goesTo(page, [7, 7], 'the address leads both');
}

const BOXES = `[...document.querySelectorAll('iframe')].map((f) => {
  const { left, right, top, bottom } = f.getBoundingClientRect();
  const inner = f.contentDocument.documentElement;
  return { left, right, top, bottom, isWide: inner.scrollWidth > inner.clientWidth };
})`;

async function besideFrames(page) {
  for (const [width, height] of [[1440, 900], [800, 900], [400, 800]]) {
    await page.resize(width, height);
    await sleep(300);
    const [a, b] = await page.run(BOXES);
    const where = `${width} by ${height}: ${JSON.stringify([a, b])}`;
    assert.ok(a.left >= 0 && b.right <= width + 0.5 && !(await page.run('document.documentElement.scrollWidth > innerWidth')), where);
    assert.ok(a.right <= b.left || a.bottom <= b.top, `they don't overlap, ${where}`);
    assert.ok(!a.isWide && !b.isWide, `neither is scrolled sideways, ${where}`);
    assert.ok(a.bottom - a.top > 300 && b.bottom - b.top > 300, `both are seen, ${where}`);
  }
  await page.resize(1400, 900);
}

async function accessible(page, _, axe) {
  if (axe) await axeOfFrames(page, axe);
}

async function quiet(page) {
  assert.deepEqual(page.errors(), [], 'the console');
}

export const besideTests = { theMoment, inStep, besideFrames, accessible, quiet };
