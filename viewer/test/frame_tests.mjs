// Whether everything stands in the window, and nothing on anything else, in windows of four sizes. What is asked is told
// by boxes, as the browser has them.
import assert from 'node:assert/strict';

// At 200 % zoom a window of 1440 by 900 pixels has half as many of the page's own each way.
export const FRAMES = [[1440, 900, 1], [800, 900, 1], [400, 800, 1], [720, 450, 2]];

// Elements of the page that are seen, without parts of pictures and what only readers of the screen have.
const HELPERS = `(() => {
  const rects = (e) => [...e.getClientRects()].filter((r) => r.width > 0.5 && r.height > 0.5);
  const name = (e) => (e.tagName + '#' + e.id + '.' + (e.getAttribute('class') || '')).slice(0, 60);
  const isSeen = (e) => rects(e).length > 0 && !e.closest('.unseen') && !e.closest('svg *') && !e.closest('dialog');
  const meet = (a, b, by) => Math.min(a.right, b.right) - Math.max(a.left, b.left) > by &&
    Math.min(a.bottom, b.bottom) - Math.max(a.top, b.top) > by;
  window.frameTest = { rects, name, isSeen, meet };
})()`;

const OUTSIDE = `(() => {
  const { rects, name, isSeen } = frameTest;
  const seen = [...document.body.querySelectorAll('*')].filter(isSeen);
  const isOut = (r, [left, right]) => r.left < left - 0.6 || r.right > right + 0.6;
  const out = seen.filter((e) => rects(e).some((r) => isOut(r, [0, innerWidth]))).map(name);
  for (const svg of document.querySelectorAll('#scene, #plot')) {
    const { left, right } = svg.getBoundingClientRect();
    for (const text of svg.querySelectorAll('text')) {
      if (rects(text).some((r) => isOut(r, [left, right]))) out.push('text ' + text.textContent);
    }
  }
  if (document.documentElement.scrollWidth > innerWidth) out.push('the page is scrolled sideways');
  if ($('scroll').scrollWidth > $('scroll').clientWidth + 1) out.push('the heap is scrolled sideways');
  return out.slice(0, 8);
})()`;

const OVERLAPS = `(() => {
  const { rects, name, isSeen, meet } = frameTest;
  const met = [];
  for (const parent of [document.body, ...document.body.querySelectorAll('*')]) {
    const children = [...parent.children].filter(isSeen);
    children.forEach((a, i) => {
      for (const b of children.slice(i + 1)) {
        if (rects(a).some((r) => rects(b).some((s) => meet(r, s, 0.6)))) met.push(name(a) + ' and ' + name(b));
      }
    });
  }
  for (const svg of document.querySelectorAll('#scene, #plot')) {
    const texts = [...svg.querySelectorAll('text')].filter((e) => e.textContent.trim());
    const boxes = texts.map((e) => e.getBoundingClientRect());
    boxes.forEach((a, i) => {
      for (let j = i + 1; j < boxes.length; j++) {
        if (meet(a, boxes[j], 2.5)) met.push(texts[i].textContent + ' and ' + texts[j].textContent);
      }
    });
  }
  return met.slice(0, 8);
})()`;

// Text that is cut off, but for lines of the list, which say all of it in their title.
const CUT = `(() => {
  const { name, isSeen } = frameTest;
  return [...document.body.querySelectorAll('*')].filter((e) => isSeen(e) && !e.closest('.row') &&
    getComputedStyle(e).overflow === 'hidden' && (e.scrollHeight > e.clientHeight + 1 || e.scrollWidth > e.clientWidth + 1))
    .map(name);
})()`;

const TOPS = `['say', 'scroll', 'legend', 'info', 'list', 'plot'].map((id) => {
  const { top, bottom } = $(id).getBoundingClientRect();
  return [id, top, bottom];
})`;

// Gives the window a size, and waits until the page has taken it.
export async function frame(page, width, height, zoom) {
  await page.resize(width, height, zoom);
  await page.waitFor(`innerWidth === ${width} && devicePixelRatio === ${zoom}`);
  await page.run('new Promise((done) => requestAnimationFrame(() => requestAnimationFrame(done)))');
}

export async function frames(page, { n, lines }) {
  await page.run(HELPERS);
  const refused = lines.at(-1)?.no ? n : Math.floor(n * 0.7);
  for (const [width, height, zoom] of FRAMES) {
    await frame(page, width, height, zoom);
    for (const line of new Set([Math.floor(n / 2), refused])) {
      await page.run(`viewer.go(${line})`);
      await page.run(`nextObject(1)`);
      const where = `${width} by ${height}, line ${line}`;
      assert.deepEqual(await page.run(OUTSIDE), [], `what leaves the window, ${where}`);
      assert.deepEqual(await page.run(OVERLAPS), [], `what stands on something else, ${where}`);
      assert.deepEqual(await page.run(CUT), [], `what is cut off, ${where}`);
      if (width <= 900) await stacked(page, where);
    }
  }
  await frame(page, 1400, 900, 1);
  await page.key('Escape');
}

// In a narrow window each part begins where the one before it ends.
async function stacked(page, where) {
  const parts = await page.run(TOPS);
  parts.slice(1).forEach(([id, top], i) => {
    assert.ok(top >= parts[i][2] - 1, `${id} stands below ${parts[i][0]}, ${where}`);
  });
}
