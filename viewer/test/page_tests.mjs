// What is tried of one page. Each test is a function of the page and its trace; it throws where the page is wrong.
import assert from 'node:assert/strict';
import { sleep } from './chromium.mjs';
import { fold } from './fold.mjs';
import { frames } from './frame_tests.mjs';
import { inspected, pointed } from './inspect_tests.mjs';
import { keyTests } from './key_tests.mjs';
import { legendTells, oneMeaning } from './legend_tests.mjs';
import { contrasts, namesAndRoles } from './access_tests.mjs';
import { windows } from './window_tests.mjs';

// The trace as the tests see it, with its states after some lines that a walk back and forth comes by.
export function read(text) {
  const [about, ...lines] = text.trim().split('\n').map((line) => JSON.parse(line));
  const n = lines.length;
  const parts = [0, 1, 17, n, n / 2, n / 3, n - 1, 2, (n * 3) / 4, n, 5, n / 5];
  const fulls = lines.flatMap((record, i) => (record.full ? [i + 1] : []));
  const walk = [...parts.map(Math.floor).filter((i) => i >= 0 && i <= n), ...fulls, ...fulls.toReversed()];
  return { about, lines, n, walk, states: fold(lines, new Set(walk), about.collector !== 0) };
}

const at = (page) => page.run('viewer.at()');
const is = async (page, line, what) => assert.equal(await at(page), line, what);

async function addresses(page, { n }) {
  await page.run('viewer.go(1)');
  await page.key('End');
  await page.waitFor(`location.hash === '#line=${n}'`);
  await page.run('location.hash = "#line=2"');
  await page.waitFor('viewer.at() === 2');
}

async function keys(page, { n }) {
  const press = async (key, line) => {
    await page.key(key);
    await is(page, line, key);
  };
  await press('Home', 0);
  await press('ArrowRight', 1);
  await press('j', 2);
  await press('ArrowDown', 3);
  await press('ArrowLeft', 2);
  await press('k', 1);
  await press('End', n);
  await press('ArrowRight', n);
  await press('Home', 0);
  await press('PageDown', Math.min(10, n));
  await press('PageUp', 0);
}

async function collectorKeys(page, { lines }) {
  const first = lines.findIndex(({ c }) => c.startsWith('gc ')) + 1;
  await page.run('viewer.go(0)');
  await page.key(']');
  await is(page, first, 'the first line of the collector');
  await page.key('[');
  await is(page, first, 'there is none before it');
}

async function controls(page, { n }) {
  await page.run(`$('slider').value = 3; $('slider').dispatchEvent(new Event('input'))`);
  await is(page, 3, 'the slider');
  const row = `document.querySelector('.row[data-i="1"]').getBoundingClientRect()`;
  await page.click(...(await page.run(`[${row}.left + 60, ${row}.top + 8]`)));
  await is(page, 1, 'a click in the list');
  const box = `$('plot').getBoundingClientRect()`;
  await page.click(...(await page.run(`[${box}.left + plot.x0 + (${n} + 0.5) * plot.step, ${box}.top + 20]`)));
  assert.ok(Math.abs((await at(page)) - n) <= 1 + n / 400, 'a click in the plot');
}

async function plays(page) {
  await page.key('Home');
  await page.key(' ');
  await page.waitFor('viewer.at() >= 1');
  await page.key(' ');
  const played = await at(page);
  await sleep(300);
  await is(page, played, 'it stops');
}

const SEEN_ROW = `['n', 'c', 'r'].map((name) => document.querySelector('.row.at .' + name).textContent)`;

async function states(page, { walk, states, lines }) {
  for (const i of walk) {
    await page.run(`viewer.go(${i})`);
    const state = JSON.parse(await page.run('JSON.stringify(viewer.whole())'));
    assert.deepEqual(state, states.get(i), `the state after line ${i}`);
    const full = i && lines[i - 1].full;
    if (full) assert.deepEqual(state, sorted(full), `the whole state in line ${i}`);
  }
}

function sorted({ births, ...full }) {
  const byFirst = (a, b) => a[0] - b[0];
  return { ...full, mutators: [...full.mutators].sort(byFirst), links: [...full.links].sort(byFirst) };
}

async function rows(page, { walk, states, lines }) {
  for (const i of walk) {
    await page.run(`viewer.go(${i})`);
    const seen = await page.run(SEEN_ROW);
    assert.equal(seen[0], String(i));
    if (i) assert.deepEqual(seen.slice(1), [lines[i - 1].c, lines[i - 1].r.replace(/^refused (\d+) /, '$1 ')]);
    const facts = await page.run(`$('facts').textContent`);
    assert.ok(facts.includes(states.get(i).phase ? 'marking' : 'idle'), `line ${i}: ${facts}`);
  }
}

// A click on a square of the map opens its page, another closes it.
async function mapOpens(page) {
  const square = `$('scene').getBoundingClientRect()`;
  const point = await page.run(`[${square}.left + mapSpot(3).x + 4, ${square}.top + mapSpot(3).y + 4]`);
  await page.click(...point);
  assert.ok(await page.run('view.opened.includes(3)'), 'a click on the map');
  await page.click(...point);
  assert.ok(!(await page.run('view.pinned.has(3)')), 'a second click on the map');
}

// As many words are lit as the line says it read. A map shows only some of them.
async function readWordsAreLit(page, { lines, about }) {
  for (const [i, record] of lines.entries()) {
    if (!record.looked) continue;
    await page.run(`viewer.go(${i + 1})`);
    const widths = await page.run(`[plan.u, document.querySelector('#g-rings .looked')?.getAttribute('d') || '']`);
    const bars = [...widths[1].matchAll(/h([\d.]+)v[\d.]+h-/g)].map(([, w]) => Number(w));
    const lit = bars.reduce((sum, w) => sum + Math.round((w + 2) / widths[0]), 0);
    if (about.pages > 64) assert.ok(lit <= record.read[1], `line ${i + 1}: ${lit}`);
    else assert.equal(lit, record.read[1], `words that are lit after line ${i + 1}`);
  }
}

const COLUMN = `(() => {
  const column = $('g-roots').getBoundingClientRect();
  const seen = $('scroll').getBoundingClientRect();
  const anchor = view.anchors.find((a) => heap.find(a.word));
  const scene = $('scene').getBoundingClientRect();
  return {
    isSeen: column.top >= seen.top - 1 && column.bottom <= seen.bottom + 1,
    click: anchor && [scene.left + anchor.x - 20, scene.top + anchor.y],
    birth: anchor && heap.find(anchor.word).birth,
  };
})()`;

// The roots stay in sight while the pages are scrolled, and answer to clicks where they stand.
async function rootsStay(page, { n }) {
  await page.run(`viewer.go(${n})`);
  for (const top of [0, 700, 1e6]) {
    await page.run(`$('scroll').scrollTop = ${top}`);
    await sleep(150);
    const { isSeen, click, birth } = await page.run(COLUMN);
    assert.ok(isSeen, `the roots' column is in sight, scrolled to ${top}`);
    await page.click(...click);
    assert.ok((await page.run(`$('info').innerText`)).startsWith(`Object #${birth}`), 'a click on a root');
    await page.key('Escape');
  }
}

// Of a run that was written down nothing is shown that only a collector knows, and of any other it is.
async function bandsFit(page, { about, n }) {
  await page.run(`viewer.go(${n})`);
  const shown = await page.run(`$('legend').textContent + $('facts').textContent + $('plot').textContent`);
  for (const text of ['what the collector knows', 'dirty page', 'mark stack', 'marked objects']) {
    assert.equal(shown.includes(text), about.collector !== 0, `${text}: ${shown}`);
  }
}

// A page whose address names no line opens at the line that is refused, says why, and picks what that is about.
export async function opensAtRefused(page, { n, lines, states }) {
  const { no, says, about } = lines[n - 1];
  await is(page, n, 'the line that is refused');
  const said = await page.run(`$('say').title`);
  assert.ok(said.startsWith(`line ${no}: ${says[0]}`), `it begins as replay does: ${said}`);
  for (const sentence of says) {
    const parts = sentence.split(/(?<=at \d+)/);
    assert.ok(parts.every((part) => said.includes(part)), `it says '${sentence}': ${said}`);
  }
  const object = states.get(n).objects.find(([place]) => place === about);
  const info = await page.run(`$('info').innerText`);
  assert.ok(info.startsWith(object ? `Object #${object[1]}` : 'After line'), info);
}

export async function exported(page, { n, about }) {
  await page.run(`viewer.go(${Math.floor(n * 0.7)})`);
  const bad = await page.run(`(() => {
    const text = viewer.picture();
    const error = new DOMParser().parseFromString(text, 'image/svg+xml').querySelector('parsererror');
    return error ? error.textContent : /var\\(--/.test(text) ? 'a variable is left' : '';
  })()`);
  assert.equal(bad, '', 'the SVG');
  const [seen, picture] = await page.run(`[$('facts').textContent, viewer.picture()]`);
  assert.ok(seen.includes(about.source) && picture.includes(about.source), 'page and picture say what the run comes from');
}

async function quiet(page) {
  assert.deepEqual(page.errors(), [], 'the console');
}

// What is asked of each page, by the name under which it is told.
export function testsOf({ about, lines }) {
  const tests = {
    addresses, keys, controls, plays, states, rows, pointed, inspected, bandsFit, exported, ...keyTests, legendTells, oneMeaning,
    namesAndRoles, contrasts, frames, windows,
  };
  if (lines.some(({ c }) => c.startsWith('gc '))) tests.collectorKeys = collectorKeys;
  if (about.pages > 64) tests.mapOpens = mapOpens;
  if (about.pages === 40) tests.rootsStay = rootsStay;
  if (lines.some(({ looked }) => looked)) tests.readWordsAreLit = readWordsAreLit;
  return { ...tests, quiet };
}

// What is asked of a page in another browser, which is driven by expressions alone.
export const elsewhere = { states, rows, exported };
