'use strict';
// Where everything stands: of the run and the room alone, so that nothing moves from line to line. The pages that are
// opened below a map are the exception.

const MAP_FROM = 65; // so many pages and more are shown as a map
const MOST_ROWS = 36; // more rows of roots than these are shown as grids
const WORD_WIDTHS = [56, 50, 44, 34, 28, 24, 20, 16, 13, 10, 8, 7, 6, 5, 4, 3];

function makePlan(width, height) {
  const isNarrow = width < 640;
  const made = { width, isMap: heap.pages >= MAP_FROM, rootsW: isNarrow ? 112 : 142, pages: new Map() };
  planRoots(made);
  made.x = made.rootsW + (isNarrow ? 34 : 52);
  made.w = Math.max(160, width - made.x - 4);
  if (made.isMap) planMap(made);
  else planPages(made, height);
  return made;
}

// -- the roots' column

function planRoots(made) {
  made.isGrid = rowsOfRoots() > MOST_ROWS;
  made.roots = [];
  let y = 2;
  const put = (row, h) => {
    made.roots.push({ ...row, y, h });
    y += h;
  };
  for (const slot of [...run.ever.registers.keys()].sort((a, b) => a - b)) {
    planMutator(made, slot, put);
    y += 6;
  }
  if (run.ever.globals.size) {
    planGlobals(made, put);
    y += 6;
  }
  made.entriesY = y;
  made.rootsH = y + planEntries(made);
}

function rowsOfRoots() {
  let rows = run.ever.globals.size;
  for (const [slot, registers] of run.ever.registers) rows += 1.2 + registers.size + Math.min(run.ever.depth.get(slot), 5);
  return rows;
}

function planMutator(made, slot, put) {
  const depth = run.ever.depth.get(slot);
  put({ type: 'head', slot }, 17);
  if (made.isGrid) {
    put({ type: 'grid', slot }, 36);
    if (depth) put({ type: 'stackgrid', slot }, 18);
    return;
  }
  for (const n of [...run.ever.registers.get(slot)].sort((a, b) => a - b)) put({ type: 'reg', slot, n }, 16);
  if (depth) put({ type: 'stackhead', slot }, 15);
  for (let below = 0; below < Math.min(depth, 5); below++) put({ type: 'stack', slot, below }, 16);
}

function planGlobals(made, put) {
  const globals = [...run.ever.globals].sort((a, b) => a - b);
  put({ type: 'globalhead' }, 17);
  if (!made.isGrid) for (const n of globals) put({ type: 'global', n }, 16);
  else for (let i = 0; i < globals.length; i += 8) put({ type: 'globalgrid', list: globals.slice(i, i + 8) }, 16);
}

// The mark stack stands below the roots; answers how high it is.
function planEntries(made) {
  made.hasEntries = run.hasCollector && run.series.phase.some((phase) => phase);
  const most = run.series.entries.reduce((a, b) => Math.max(a, b), 0);
  made.entryRows = made.hasEntries ? Math.min(6, Math.max(1, most)) : 0;
  return made.hasEntries ? 34 + 15 * (made.entryRows + 1) : 0;
}

// -- the map

function planMap(made) {
  const used = Math.min(heap.pages, Math.max(64, ...[...run.ever.pages.keys()].map((p) => p + 1)));
  const least = used <= 256 ? 14 : used <= 1024 ? 9 : 6;
  for (const across of [128, 64, 32, 16]) {
    made.perRow = across;
    made.side = Math.min(22, Math.floor(made.w / across));
    if (made.side >= least) break;
  }
  made.mapY = 18;
  made.shown = Math.min(heap.pages, Math.ceil(used / made.perRow) * made.perRow); // the others are never used
  made.mapH = Math.ceil(made.shown / made.perRow) * made.side + (made.shown < heap.pages ? 16 : 0);
  made.height = Math.max(made.rootsH, made.mapY + made.mapH + 20);
}

// -- pages

// Words are as wide as lets all pages stand in this height.
function planPages(made, height) {
  const all = [...Array(heap.pages).keys()];
  const ends = (p) => (run.ever.pages.has(p) ? [...run.ever.pages.get(p)] : []);
  for (const u of WORD_WIDTHS) {
    if (u > 8 && Math.floor((made.w - 8) / u) < 12) continue;
    const total = arrange(made, all, ends, u, 0);
    made.height = Math.max(made.rootsH, total);
    if (total <= height) return;
  }
}

// How rows of words look that are `u` wide.
function setScale(made, u) {
  made.u = u;
  made.isBig = u >= 20;
  made.isWide = u >= 44; // words have room for what they point into
  made.dotX = made.isWide ? u - 10 : made.isBig ? u - 7 : u / 2;
  made.rowH = u >= 44 ? 56 : u >= 20 ? 46 : u >= 13 ? 26 : u >= 8 ? 18 : 14;
  made.lowH = u >= 20 ? 7 : u >= 13 ? 6 : u >= 8 ? 5 : 4;
  made.upH = made.rowH - made.lowH - 1;
  made.lanes = u >= 20 ? 28 : u >= 10 ? 14 : 0; // room for arrows above the rows
  made.gapY = u >= 20 ? 30 : u >= 13 ? 8 : 3;
}

// Gives pages their places below `top`, with words `u` wide, and answers where the last ends.
function arrange(made, pages, ends, u, top) {
  setScale(made, u);
  made.pages = new Map();
  let y = top + 2;
  let unused = null;
  for (const p of pages) {
    const sizes = ends(p);
    if (sizes.length) {
      const spread = spreadPage(made, p, sizes, y);
      made.pages.set(p, spread);
      y = spread.rowsY + spread.h + (made.isBig ? 14 : 10);
    } else if (unused && unused.to === p - 1) {
      unused.to = p;
      made.pages.set(p, { ...unused, p, hidden: true });
    } else {
      unused = { p, to: p, x: made.x, y, h: 16, unused: true, rows: 1 };
      made.pages.set(p, unused);
      y += 20;
    }
  }
  return y;
}

// A page is as tall as it ever gets, with each of these sizes of cells.
function spreadPage(made, p, sizes, y) {
  const across = Math.max(8, Math.floor((made.w - 8) / made.u));
  const rows = Math.max(1, ...sizes.map(([size, end]) => Math.ceil(end / perRow(size, across))));
  const extent = Math.max(0, ...sizes.map(([, end]) => end));
  const h = rows * made.rowH + (rows - 1) * made.gapY;
  return { p, x: made.x, y, rowsY: y + 18 + made.lanes, h, rows, across, extent };
}

// how many words a row has, so that cells of this size aren't cut where they fit
const perRow = (size, across) => (size <= across ? Math.floor(across / size) * size : across);

// the words of a cell of a page, and 2 where the page is free
const cellSize = (p) => (heap.cells[p] ? heap.size[p] : 2);

// where a word of a shown page stands: the left edge and the top of its row
function spot(place) {
  const at = plan.pages.get(pageOf(place));
  if (!at || at.unused) return null;
  const per = perRow(Math.min(cellSize(pageOf(place)), PAGE), at.across);
  const i = wordInPage(place);
  const row = Math.floor(i / per);
  if (row >= at.rows) return null;
  return { x: at.x + 4 + (i % per) * plan.u, y: at.rowsY + row * (plan.rowH + plan.gapY), per };
}

// the pieces of rows that words from a place on cover, on one page
function pieces(place, words) {
  const found = [];
  const end = place + words;
  for (let at = place; at < end; ) {
    const s = spot(at);
    if (!s) break;
    const i = wordInPage(at);
    const n = Math.min(end - at, s.per - (i % s.per), PAGE - i);
    found.push({ x: s.x, y: s.y, w: n * plan.u, at, n });
    at += n;
  }
  return found;
}

// the pieces of an object on all its pages
function piecesOf(object) {
  return [...pagesUnder(object)].flatMap((p) => {
    const from = Math.max(object.place, p * PAGE);
    return pieces(from, Math.min(object.place + object.words, (p + 1) * PAGE) - from);
  });
}
