'use strict';
// The whole scene: what changed is drawn again, each page and each row of the map by itself.

const drawn = new Map(); // page -> its element, and that of its heading

// The pages below the map are those that the line, or the lines just before, touched.
function pagesOfLine() {
  const pages = [];
  for (let i = run.at; i > Math.max(0, run.at - 60) && pages.length < 2; i--) addPagesOf(run.recordOf(i), pages);
  return pages;
}

// Adds the pages that a record touches, two at most.
function addPagesOf(record, pages) {
  const places = [
    ...(record.new || []).map(([place]) => place),
    ...(record.wrote || []).map(([place]) => place),
    ...(record.looked || []).map(([place]) => place),
    ...['+', '-'].flatMap((sign) => (record.dirty?.[sign] || []).map((p) => p * PAGE)),
    ...(record.forget || []).slice(0, 600),
    ...(record.free || []).slice(0, 600),
    ...(record.marked?.['+'] || []).slice(0, 600),
    ...(record.regs || []).flatMap(([, , word]) => heap.find(word)?.place ?? []),
  ];
  for (const place of places) {
    if (pages.length > 1) return;
    if (!pages.includes(pageOf(place))) pages.push(pageOf(place));
  }
}

function drawScene(isNew) {
  plan.entrySet = new Set(heap.entries.map(([place]) => place));
  if (heap.current) plan.entrySet.add(heap.current[0]);
  const isMoved = (plan.isMap && openPages(isNew)) || isNew;
  if (isNew) $('scene').innerHTML = SCENE;
  if (isMoved) drawAllPages();
  else drawStalePages();
  if (plan.isMap) drawMap(isNew);
  heap.stale.clear();
  shiftRoots();
  $('g-roots').innerHTML = drawRoots();
  drawOver();
}

const LAYERS = ['frame', 'map', 'open', 'pages', 'roots', 'arrows', 'heads', 'rings'];
const SCENE = LAYERS.map((name) => `<g id="g-${name}"></g>`).join('');

// Chooses the pages below the map, and answers whether any of them moves.
function openPages(isNew) {
  const pinned = [...view.pinned];
  const pages = [...new Set([...pinned, ...pagesOfLine()])].slice(0, Math.max(3, pinned.length)).sort((a, b) => a - b);
  const key = pages.map((p) => `${p}:${heap.cells[p] ? heap.size[p] : 0}`).join();
  if (!isNew && key === plan.openKey) return false;
  view.opened = pages;
  plan.openKey = key;
  const u = plan.w > 700 ? 10 : plan.w > 480 ? 7 : 5;
  const bottom = arrange(plan, pages, extentOf, u, plan.mapY + plan.mapH + 14);
  plan.height = Math.max(plan.rootsH, bottom);
  return true;
}

// An opened page shows all its cells, and a free one is a frame.
function extentOf(p) {
  const size = heap.cells[p] ? heap.size[p] : 0;
  if (!size) return [[MOST_SMALL, 1]];
  return [[size, size > MOST_SMALL ? PAGE : Math.floor(PAGE / size) * size]];
}

function drawAllPages() {
  fill($('scene'), plan.width, Math.ceil(plan.height + 4));
  const pages = [...plan.pages.keys()];
  $('g-pages').innerHTML = pages.map((p) => `<g id="p${p}">${drawPage(plan.pages.get(p))}</g>`).join('');
  $('g-heads').innerHTML = pages.map((p) => `<g id="h${p}">${drawHeading(plan.pages.get(p))}</g>`).join('');
  drawn.clear();
  for (const p of pages) drawn.set(p, [$('p' + p), $('h' + p)]);
  if (plan.isMap) $('g-open').innerHTML = drawOpened();
}

// Wide cells name what their words point into, so they are all drawn again.
function drawStalePages() {
  const again = plan.isWide && heap.stale.size ? drawn.keys() : heap.stale;
  for (const p of again) {
    if (!drawn.has(p)) continue;
    const [page, heading] = drawn.get(p);
    page.innerHTML = drawPage(plan.pages.get(p));
    heading.innerHTML = drawHeading(plan.pages.get(p));
  }
}

function drawMap(isNew) {
  const rows = Math.ceil(plan.shown / plan.perRow);
  if (isNew) {
    $('g-frame').innerHTML = drawMapFrame();
    $('g-map').innerHTML = [...Array(rows).keys()].map((row) => `<g>${drawMapRow(row)}</g>`).join('');
    return;
  }
  const stale = new Set([...heap.stale].map((p) => Math.floor(p / plan.perRow)));
  for (const row of stale) if (row < rows) $('g-map').children[row].innerHTML = drawMapRow(row);
}

function drawOver() {
  $('g-arrows').innerHTML = drawArrows();
  $('g-rings').innerHTML = drawRings();
  showLegend();
}

// -- the roots' column stays in sight while the pages are scrolled

// How far down the column has to stand: with the view where it fits, and else so that both have their ends together.
function shiftFor(scrolled, seen) {
  const spare = Math.max(0, plan.height - plan.rootsH);
  if (plan.rootsH <= seen) return Math.min(scrolled, spare);
  const travel = plan.height - seen;
  return travel > 0 ? Math.min(spare, (scrolled * spare) / travel) : 0;
}

function shiftRoots() {
  const { scrollTop, clientHeight } = $('scroll');
  setShift(shiftFor(scrollTop, clientHeight));
}

function setShift(shift) {
  view.rootsShift = shift;
  $('g-roots').setAttribute('transform', `translate(0 ${shift})`);
}

function redrawRoots() {
  $('g-roots').innerHTML = drawRoots();
  drawOver();
}

function followScroll() {
  const was = view.rootsShift;
  shiftRoots();
  if (view.rootsShift !== was) redrawRoots();
}

// What is made of the scene for paper or a file has the column at its top.
function withRootsAtTop(make) {
  setShift(0);
  redrawRoots();
  const made = make();
  shiftRoots();
  redrawRoots();
  return made;
}
