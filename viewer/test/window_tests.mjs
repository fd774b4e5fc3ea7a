// Pictures of the window, as it is painted, in windows of four sizes: each has the size of its window, no part of the page
// that stands there is blank, and marked cells are painted where they stand, in their colour.
import assert from 'node:assert/strict';
import { FRAMES, frame } from './frame_tests.mjs';

// The parts, and the marked cells, as boxes in the window.
const BOXES = `(() => {
  const box = (e) => {
    const r = e.getBoundingClientRect();
    return [Math.max(0, r.left), Math.max(0, r.top), Math.min(innerWidth, r.right), Math.min(innerHeight, r.bottom)];
  };
  const isThere = ([left, top, right, bottom]) => right - left > 8 && bottom - top > 8;
  const parts = ['title', 'controls', 'say', 'legend', 'scroll', 'info', 'list', 'plot'];
  const seen = box($('scroll'));
  const isInHeap = ([left, top, right, bottom]) => left >= seen[0] && top >= seen[1] && right <= seen[2] && bottom <= seen[3];
  const marked = [...$('scene').querySelectorAll('.cm')].map(box).filter((b) => isThere(b) && isInHeap(b));
  return { parts: parts.map((id) => [id, box($(id))]).filter(([, b]) => isThere(b)), marked };
})()`;

// How large a picture is, and the colours in each box, at most 4000, as numbers of blue, green and red.
const coloursIn = (data, boxes, scale) => `(async () => {
  const image = new Image();
  image.src = 'data:image/png;base64,${data}';
  await image.decode();
  const { width, height } = image;
  const pen = new OffscreenCanvas(width, height).getContext('2d', { willReadFrequently: true });
  pen.drawImage(image, 0, 0);
  const colours = ([left, top, right, bottom]) => {
    const at = [left, top, right - left, bottom - top].map((x) => Math.floor(x * ${scale}));
    const pixels = new Uint32Array(pen.getImageData(...at).data.buffer);
    return [...new Set(pixels)].slice(0, 4000).map((pixel) => pixel & 0xffffff);
  };
  return { size: [width, height], colours: ${JSON.stringify(boxes)}.map(colours) };
})()`;

const MARK = `(() => {
  const [red, green, blue] = getComputedStyle(document.documentElement).getPropertyValue('--mark').trim().slice(1).match(/../g);
  return parseInt(blue + green + red, 16);
})()`;

export async function windows(page, { n }) {
  const mark = await page.run(MARK);
  await page.run(`viewer.go(${Math.floor(n / 2)})`);
  for (const [width, height, zoom] of FRAMES) {
    await frame(page, width, height, zoom);
    const { parts, marked } = await page.run(BOXES);
    const boxes = [...parts.map(([, box]) => box), ...marked];
    const { size, colours } = await page.run(coloursIn(await page.picture(), boxes, zoom));
    const where = `${width} by ${height}`;
    assert.deepEqual(size, [width * zoom, height * zoom], `the picture's size, ${where}`);
    assert.ok(parts.length >= 4, `${parts.length} parts stand in the window, ${where}`);
    parts.forEach(([id], i) => assert.ok(colours[i].length > 1, `${id} isn't blank, ${where}`));
    marked.forEach((box, i) => assert.ok(colours[parts.length + i].includes(mark), `marked cells are painted at ${box}, ${where}`));
  }
  await frame(page, 1400, 900, 1);
}
