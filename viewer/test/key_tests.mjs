// Everything by keys, and what readers of the screen are told. What is expected is read from the trace and its fold.
import assert from 'node:assert/strict';
import { sleep } from './chromium.mjs';

const FIRST = 268435456;
const at = (page) => page.run('viewer.at()');
const info = (page) => page.run(`$('info').innerText`);
const focus = (page, id) => page.run(`$('${id}').focus()`);

const FOCUSED = `(() => {
  const e = document.activeElement;
  const { outlineStyle, outlineWidth } = getComputedStyle(e);
  return { id: e.id, act: e.dataset?.act || '', isSeen: outlineStyle !== 'none' && parseFloat(outlineWidth) >= 2 };
})()`;

// The Tab key comes by every control in the order of the page, and the focus is seen at each.
async function focusOrder(page) {
  await page.run(`viewer.go(3), $('first').focus()`);
  const wanted = ['first', 'back', 'play', 'next', 'last', 'slider', 'arrows', 'save', 'help', 'scroll', 'info', 'list'];
  const found = ['first'];
  for (let press = 0; press < 60 && found.at(-1) !== 'list'; press++) {
    await page.key('Tab');
    const { id, act, isSeen } = await page.run(FOCUSED);
    assert.ok(isSeen, `the focus is seen at ${id || act}`);
    if (id) found.push(id);
  }
  assert.deepEqual(found, wanted, 'what Tab comes by');
}

const ROW = `(() => {
  const row = $($('list').getAttribute('aria-activedescendant'));
  return row && [row.getAttribute('role'), row.getAttribute('aria-selected'), row.querySelector('.n').textContent];
})()`;

// The list names the row of the line as the one that is meant, also where that is scrolled out of sight.
async function activeRow(page, { n }) {
  await focus(page, 'list');
  for (const [key, line] of [['Home', 0], ['ArrowDown', 1], ['ArrowDown', 2], ['End', n], ['ArrowUp', n - 1]]) {
    await page.key(key);
    assert.deepEqual(await page.run(ROW), ['option', 'true', String(line)], `the row that is meant, ${key}`);
  }
  await page.run(`$('list').scrollTop = 0`);
  await sleep(60);
  assert.deepEqual(await page.run(ROW), ['option', 'true', String(n - 1)], 'the row that is meant, out of sight');
}

// the object of a state that a word points into
function pointedInto(state, word) {
  if (typeof word !== 'number') return null;
  const isIn = ([base, , words]) => word >= FIRST + 8 * base && word < FIRST + 8 * (base + words);
  return state.objects.find((object) => !object[4] && isIn(object)) || null;
}

// A line with a word of a normal object that points into an object: [line, its state, place of the holder, the word].
function somePointer({ states }) {
  for (const [line, state] of [...states].sort(([a], [b]) => b - a)) {
    for (const [place, word] of state.words) {
      const holder = state.objects.find(([base, , words]) => place >= base && place < base + words);
      if (holder && !holder[3] && pointedInto(state, word)) return { line, state, holder, place, word };
    }
  }
  return null;
}

const lastWrite = (lines, line, place) => {
  for (let i = line; i >= 1; i--) if ((lines[i - 1].wrote || []).some(([at]) => at === place)) return i;
  return 0;
};

const number = ([, birth]) => `Object #${birth}`;

// The heap's arrow keys pick objects in the order in which they stand, each told to readers of the screen.
async function picksObjects(page, { states }) {
  const [line, { objects }] = [...states].find(([, state]) => state.objects.length > 1) || [];
  if (!objects) return;
  await page.run(`viewer.go(${line})`);
  await focus(page, 'scroll');
  for (const [key, object] of [['Home', objects[0]], ['ArrowRight', objects[1]], ['ArrowLeft', objects[0]],
    ['End', objects.at(-1)], ['ArrowDown', objects[0]]]) {
    await page.key(key);
    assert.ok((await info(page)).startsWith(number(object)), `${key} picks ${number(object)}: ${await info(page)}`);
    const told = await page.run(`[$('told').textContent, $($('scroll').getAttribute('aria-activedescendant')).textContent]`);
    for (const text of told) assert.ok(text.startsWith(`Object ${object[1]}: `), `${key} tells ${text}`);
    assert.equal(await at(page), line, `${key} stays at its line`);
  }
}

// A pointer is followed by keys and back, and its line is gone to.
async function followsPointers(page, trace) {
  const found = somePointer(trace);
  if (!found) return;
  const { line, state, holder, place, word } = found;
  await page.run(`viewer.go(${line})`);
  await focus(page, 'scroll');
  await page.key('Home');
  for (let i = 0; i < state.objects.indexOf(holder); i++) await page.key('ArrowRight');
  const before = state.words.filter(([at]) => at >= holder[0] && at <= place).length;
  for (let i = 0; i < before; i++) await page.key('w');
  await page.key('Enter');
  assert.ok((await info(page)).startsWith(number(pointedInto(state, word))), `Enter follows: ${await info(page)}`);
  await page.key('b');
  assert.ok((await info(page)).startsWith(number(holder)), 'b leads back');
  assert.ok((await page.run(`$('told').textContent`)).includes(`word ${place - holder[0]} is `), 'the word is chosen again');
  await page.key('g');
  assert.equal(await at(page), lastWrite(trace.lines, line, place), 'g goes to the line that stored the word');
}

// The same by the inspector's buttons, by Tab and Enter.
async function buttonsLead(page, trace) {
  const found = somePointer(trace);
  if (!found) return;
  const { line, holder, place, state, word } = found;
  await page.run(`viewer.go(${line}), pickObject(${holder[0]}), $('info').focus()`);
  for (let press = 0; press < 60; press++) {
    await page.key('Tab');
    if (await page.run(`document.activeElement.dataset.act === 'follow' && +document.activeElement.dataset.arg === ${place}`)) break;
  }
  await page.key('Tab');
  await page.key('Enter');
  assert.equal(await at(page), lastWrite(trace.lines, line, place), 'the button of a line');
  await page.run(`viewer.go(${line}), pickObject(${holder[0]})`);
  await page.run(`document.querySelector('[data-act="follow"][data-arg="${place}"]').focus()`);
  await page.key('Enter');
  assert.ok((await info(page)).startsWith(number(pointedInto(state, word))), 'the button of a pointer');
  await page.key('Escape');
}

// A step says in a live region what the line is, and what changed.
async function tellsSteps(page, { lines }) {
  await page.run(`viewer.go(0), document.activeElement.blur()`);
  for (let i = 1; i <= Math.min(12, lines.length); i++) {
    await page.key('j');
    const [role, said] = await page.run(`[$('say').getAttribute('role'), $('say').textContent]`);
    assert.equal(role, 'status');
    assert.ok(said.startsWith(lines[i - 1].c), `line ${i} is told: ${said}`);
    for (const [, birth] of lines[i - 1].new || []) assert.ok(said.includes(`object #${birth} comes`) || said.includes(`Object #${birth} comes`), said);
  }
}

// Keys of one letter can be switched off, since readers by voice need that.
async function lettersOff(page) {
  await page.run(`viewer.go(1), document.activeElement.blur(), $('letters').checked = false`);
  await page.key('j');
  assert.equal(await at(page), 1, 'j is switched off');
  await page.key('ArrowRight');
  assert.equal(await at(page), 2, 'arrows are not');
  await page.run(`$('letters').checked = true`);
  await page.key('j');
  assert.equal(await at(page), 3, 'j is switched on');
}

export const keyTests = { focusOrder, activeRow, picksObjects, followsPointers, buttonsLead, tellsSteps, lettersOff };
