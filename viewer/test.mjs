// Opens the page with each trace of examples/, and with some made here, in a headless Chromium and in Firefox where
// there is one, and tries it.
//     node viewer/test.mjs [NAME [TEST]]    prints what fails, of all pages or of one, and then `viewer: N passed, M failed`
//     node viewer/test.mjs --shots DIR      makes pictures of them for looking instead, and a PDF of each
// Needs node 20 or later and Debian's `chromium` (or CHROMIUM=path); Debian's `firefox-esr` (or FIREFOX=path) is tried
// where it is there. No package of node is needed.
import { execFileSync, spawnSync } from 'node:child_process';
import { mkdirSync, mkdtempSync, readdirSync, readFileSync, rmSync, writeFileSync } from 'node:fs';
import { tmpdir } from 'node:os';
import { dirname, join } from 'node:path';
import { fileURLToPath, pathToFileURL } from 'node:url';
import assert from 'node:assert/strict';
import { Chromium } from './test/chromium.mjs';
import { Firefox } from './test/firefox.mjs';
import { axeFindsNothing, findAxe } from './test/access_tests.mjs';
import { besideTests } from './test/beside_tests.mjs';
import { drawWritesTheSame, findDraw, isOfCore } from './test/example_tests.mjs';
import { manyLines } from './test/many_lines.mjs';
import { manyPages } from './test/many_pages.mjs';
import { manyTests } from './test/many_tests.mjs';
import { elsewhere, opensAtRefused, read, testsOf } from './test/page_tests.mjs';
import { takeShots } from './test/shots.mjs';

const here = dirname(fileURLToPath(import.meta.url));
const room = mkdtempSync(join(tmpdir(), 'heap-pages-'));
let passed = 0;
let failed = 0;
const isShots = process.argv[2] === '--shots';
const [only, onlyTest] = isShots ? [] : process.argv.slice(2);

async function check(name, test) {
  if (onlyTest && !name.endsWith(onlyTest)) return;
  try {
    await test();
    passed++;
  } catch (error) {
    failed++;
    console.log(`viewer: ${name}: ${String(error.stack || error).slice(0, 1500)}`);
  }
}

// The page of a trace, as join.sh makes it.
function joinPage(name, trace) {
  const file = join(room, name + '.html');
  const page = execFileSync(join(here, 'join.sh'), ['-'], { input: trace, maxBuffer: 1 << 28 });
  writeFileSync(file, page);
  return pathToFileURL(file).href;
}

function traces() {
  const folder = join(here, 'examples');
  const files = readdirSync(folder).filter((file) => file.endsWith('.jsonl')).sort();
  const stored = files.map((file) => [file.replace('.jsonl', ''), readFileSync(join(folder, file), 'utf8')]);
  return [...stored, ['many_pages', manyPages()]];
}

async function tryPage(browser, name, text, axe) {
  const url = joinPage(name, text);
  let trace = null;
  try {
    trace = read(text);
  } catch (error) {
    return check(`${name}, the trace`, () => assert.fail(error.message));
  }
  await check(`${name}, the trace`, () => assert.ok(trace));
  await check(`${name}, no address of the network`, () => {
    assert.doesNotMatch(readFileSync(new URL(url), 'utf8'), /https?:\/\/(?!www\.w3\.org)/);
  });
  const page = await browser.open(`${url}#line=2`);
  await check(`${name}, the line of its address`, async () => assert.equal(await page.run('viewer.at()'), 2));
  for (const [what, test] of Object.entries(testsOf(trace))) await check(`${name}, ${what}`, () => test(page, trace));
  if (axe) await check(`${name}, axe-core`, () => axeFindsNothing(page, trace, axe));
  await page.close();
  if (trace.lines.at(-1)?.no) {
    const opened = await browser.open(url);
    await check(`${name}, the line that is refused`, () => opensAtRefused(opened, trace));
    await opened.close();
  }
}

async function tryManyLines(browser) {
  const page = await browser.open(joinPage('many_lines', manyLines()));
  await check('many lines, it opens', () => page.waitFor('window.viewer && viewer.run.last === 100000'));
  for (const [what, test] of Object.entries(manyTests)) await check(`many lines, ${what}`, () => test(page));
  await check('many lines, the console', () => assert.deepEqual(page.errors(), []));
  await page.close();
}

async function tryBeside(browser, axe) {
  const [one, other] = ['kept', 'refused'].map((name) => join(here, 'examples', name + '.jsonl'));
  const file = join(room, 'beside.html');
  writeFileSync(file, execFileSync(join(here, 'beside.sh'), [one, other], { maxBuffer: 1 << 28 }));
  const page = await browser.open(pathToFileURL(file).href);
  const traces = [one, other].map((name) => read(readFileSync(name, 'utf8')));
  for (const [what, test] of Object.entries(besideTests)) {
    await check(`beside each other, ${what}`, () => test(page, traces, axe));
  }
  await page.close();
}

// What each stored trace is made by, it says; of the proved core's, draw writes the same.
async function tryExamples() {
  const draw = findDraw();
  if (!draw) console.log('viewer: there is no build of draw: whether it writes the stored traces is not tried');
  for (const [name, text] of traces()) {
    const about = JSON.parse(text.split('\n')[0]);
    await check(`${name}, its source`, () => assert.ok(about.source));
    if (draw && isOfCore(about)) await check(`${name}, as draw writes it`, () => drawWritesTheSame(draw, text, room));
  }
}

// A trace of no line.
const empty = (changes) => JSON.stringify({ mpheap: 'trace', version: 1, title: 'x', pages: 1, ...changes }) + '\n';

// Text in a trace ends no element of the page, and a page without a readable trace says so.
async function tryJoin(browser) {
  await check('text of a trace', async () => {
    const title = '</script><b>&amp; "heap"';
    const page = await browser.open(joinPage('text', empty({ title })));
    assert.equal(await page.run(`$('title').textContent`), title);
    assert.deepEqual(page.errors(), []);
    await page.close();
  });
  await check('a trace of another version', async () => {
    const page = await browser.open(joinPage('version', empty({ version: 2 })));
    assert.ok((await page.run(`$('say').textContent`)).startsWith('This page has no readable trace'));
    await page.close();
  });
  await check('a file that is not there', () => {
    const { status, stdout } = spawnSync(join(here, 'join.sh'), [join(room, 'missing')], { encoding: 'utf8' });
    assert.deepEqual([status, stdout], [1, '']);
  });
}

async function tryFirefox() {
  if (spawnSync(process.env.FIREFOX || 'firefox-esr', ['--version']).error) {
    console.log('viewer: Firefox is not there: skipped');
    return;
  }
  const browser = new Firefox();
  try {
    await browser.connect();
    for (const [name, text] of traces()) {
      const page = await browser.open(joinPage(name, text));
      const trace = read(text);
      for (const [what, test] of Object.entries(elsewhere)) {
        await check(`Firefox, ${name}, ${what}`, () => test(page, trace));
      }
    }
  } finally {
    await browser.close();
  }
}

for (const signal of ['SIGINT', 'SIGTERM', 'SIGHUP']) process.once(signal, () => process.exit(1));
const browser = new Chromium();
try {
  if (isShots) {
    mkdirSync(process.argv[3], { recursive: true });
    await takeShots(browser, process.argv[3], traces().map(([name, text]) => [name, joinPage(name, text)]));
  } else {
    const axe = await findAxe(browser);
    if (!axe) console.log('viewer: axe-core is not there: skipped');
    const isTried = (name) => !only || only === name;
    for (const [name, text] of traces()) if (isTried(name)) await tryPage(browser, name, text, axe);
    if (isTried('examples')) await tryExamples();
    if (isTried('beside')) await tryBeside(browser, axe);
    if (isTried('many_lines')) await tryManyLines(browser);
    if (isTried('join')) await tryJoin(browser);
    if (isTried('Firefox')) await tryFirefox();
    console.log(`viewer: ${passed} passed, ${failed} failed`);
  }
} finally {
  await browser.close();
  rmSync(room, { recursive: true, force: true });
}
process.exit(failed ? 1 : 0);
