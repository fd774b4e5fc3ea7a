// What an automatic check of accessibility finds: axe-core, which Chromium's own developer tools hold (or AXE=path);
// names and roles as Chromium tells them to readers of the screen; and contrasts in pictures, which axe doesn't look at.
import assert from 'node:assert/strict';
import { readFileSync } from 'node:fs';

const HOLDER = 'devtools://devtools/bundled/third_party/lighthouse/lighthouse-dt-bundle.js';

// The text of axe-core, or null where there is none.
export async function findAxe(browser) {
  if (process.env.AXE) return readFileSync(process.env.AXE, 'utf8');
  const text = await browser.textAt(HOLDER).catch(() => '');
  const from = text.indexOf('`/*! axe v');
  if (from < 0) return null;
  let to = from + 1;
  while (to < text.length && text[to] !== '`') to += text[to] === '\\' ? 2 : 1;
  return new Function(`return ${text.slice(from, to + 1)}`)();
}

const violations = `axe.run(document, { resultTypes: ['violations'] }).then(({ violations }) => violations.map(
  ({ id, nodes }) => id + ': ' + nodes.slice(0, 3).map(({ html }) => html.slice(0, 160)).join(' | ')))`;

// Each page as it opens, with an object picked, and with its dialog.
export async function axeFindsNothing(page, { n }, axe) {
  await page.run(axe);
  await page.run(`viewer.go(${Math.floor(n / 2)})`);
  assert.deepEqual(await page.run(violations), [], 'axe-core');
  await page.run(`nextObject(1)`);
  assert.deepEqual(await page.run(violations), [], 'axe-core, with an object picked');
  await page.run(`$('keys').showModal()`);
  assert.deepEqual(await page.run(violations), [], 'axe-core, with the keys shown');
  await page.run(`$('keys').close()`);
  await page.key('Escape');
}

// The frame of two pages, each of which is asked by itself.
export async function axeOfFrames(page, axe) {
  await page.run(axe);
  const inFrames = violations.replace('document,', '{ exclude: [["iframe"]] },');
  assert.deepEqual(await page.run(inFrames), [], 'axe-core, of the page that holds two');
}

const ROLES = {
  'To the start': 'button', 'One line back': 'button', Play: 'button', 'One line on': 'button', 'To the end': 'button',
  'Line of the script': 'slider', arrows: 'combobox', SVG: 'button', Keys: 'button',
  'Objects of the heap': 'listbox', Inspector: 'region', 'Lines and replies': 'listbox', Legend: 'list',
};

// Names and roles, as Chromium tells them.
export async function namesAndRoles(page) {
  await page.call('Accessibility.enable');
  const { nodes } = await page.call('Accessibility.getFullAXTree');
  const told = nodes.filter(({ ignored, role }) => !ignored && !/Text/.test(role?.value));
  const found = new Map(told.map(({ name, role }) => [name?.value, role?.value]));
  const seen = Object.fromEntries(Object.keys(ROLES).map((name) => [name, found.get(name)]));
  assert.deepEqual({ ...seen, arrows: String(seen.arrows).toLowerCase() }, ROLES);
  const isFocusable = ({ properties = [] }) => properties.some(({ name, value }) => name === 'focusable' && value.value);
  const nameless = nodes.filter((node) => !node.ignored && isFocusable(node) && !node.name?.value && node.role.value !== 'RootWebArea');
  assert.deepEqual(nameless.map(({ role }) => role.value), [], 'what can have the focus has a name');
  const live = nodes.filter(({ role }) => role?.value === 'status');
  assert.equal(live.length, 2, 'two live regions: of lines, and of what is picked');
  await page.call('Accessibility.disable');
}

// Text and ground, which need 4.5 to 1, and looks that have to be told from their ground, which need 3 to 1.
const TEXTS = [
  ['ink', 'bg'], ['soft', 'bg'], ['ink', 'panel'], ['soft', 'panel'], ['ink', 'here'], ['ink', 'phase'], ['soft', 'phase'],
  ['ink', 'faint'], ['soft', 'faint'], ['markink', 'mark'], ['ink', 'cell'], ['soft', 'cell'], ['ink', 'forgotbg'],
  ['dirty', 'bg'], ['carried', 'bg'],
];
const LOOKS = [
  ...['mark', 'celledge', 'free', 'forgot', 'true', 'dirty', 'carried', 'new', 'arrow', 'link', 'herebar'].map((name) => [name, 'bg']),
  ['looked', 'mark'], ['markink', 'mark'],
];

function luminance(colour) {
  const parts = [1, 3, 5].map((i) => parseInt(colour.slice(i, i + 2), 16) / 255);
  const [r, g, b] = parts.map((x) => (x <= 0.04045 ? x / 12.92 : ((x + 0.055) / 1.055) ** 2.4));
  return 0.2126 * r + 0.7152 * g + 0.0722 * b;
}

function contrast(a, b) {
  const [low, high] = [luminance(a), luminance(b)].sort((x, y) => x - y);
  return (high + 0.05) / (low + 0.05);
}

export async function contrasts(page) {
  const names = [...new Set([...TEXTS, ...LOOKS].flat())];
  for (const value of ['light', 'dark']) {
    await page.call('Emulation.setEmulatedMedia', { features: [{ name: 'prefers-color-scheme', value }] });
    const values = await page.run(`(() => {
      const style = getComputedStyle(document.documentElement);
      return Object.fromEntries(${JSON.stringify(names)}.map((name) => [name, style.getPropertyValue('--' + name).trim()]));
    })()`);
    const weak = (pairs, least) => pairs.filter(([a, b]) => !(contrast(values[a], values[b]) >= least)).map(String);
    assert.deepEqual(weak(TEXTS, 4.5), [], `contrast of texts, ${value}`);
    assert.deepEqual(weak(LOOKS, 3), [], `contrast of looks, ${value}`);
  }
  await page.call('Emulation.setEmulatedMedia', { features: [{ name: 'prefers-color-scheme', value: 'light' }] });
}
