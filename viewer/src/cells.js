'use strict';
// One page of the heap: its heading, its borders, and each cell in two bands. The upper band is what the collector
// knows, the lower one what is true.

// The paths of one page, a path for each look.
const CELL_LOOKS = [
  ['cf', 'f'], ['cu', 'u'], ['cm', 'm'], ['cg', 'g'], ['hatch', 'g'], ['co', 'o'], ['tn', 'n'], ['tr', 'r'], ['tt', 't'],
  ['wordsep', 'separators'], ['ptr', 'dots'], ['ptrm', 'dotsOnMarked'], ['entry', 'entries'],
];

function drawPage(at) {
  if (at.unused) return at.hidden ? '' : drawUnused(at);
  const n = heap.cells[at.p];
  const width = perRow(Math.min(cellSize(at.p), PAGE), at.across) * plan.u + 8;
  const borders = drawBorders(at, width, n);
  return n ? borders + drawCells(at, width) : borders;
}

function drawUnused(at) {
  const which = at.to > at.p ? `pages ${at.p} to ${at.to}` : `page ${at.p}`;
  return label(at.x, at.y + 12, 'soft', `${which}: free in the whole run`);
}

// what lies on a page, in words
function pageKind(p) {
  const n = heap.cells[p];
  const kind = heap.atomic[p] ? 'atomic' : 'normal';
  if (!n) return 'free';
  if (heap.head[p] < 0) return `${n} of ${Math.floor(PAGE / heap.size[p])} cells of ${heap.size[p]} words, ${kind}`;
  const { words } = heap.objects.get(heap.head[p] * PAGE);
  const part = words > PAGE ? `, ${p - heap.head[p] + 1} of ${words / PAGE} pages` : '';
  return `large, ${grouped(words)} words${part}, ${kind}`;
}

const TAGS = [['dirty', 'tagd', 'DIRTY'], ['carried', 'tagc', 'CARRIED'], ['pending', 'tagp', 'TO SWEEP']];

// The page's number, its borders by name, and what lies there as far as there is room. It stands above the arrows.
function drawHeading(at) {
  if (at.unused) return '';
  const title = 'page ' + at.p;
  let x = at.x + measure(title, true) + 8;
  let out = label(at.x, at.y + 12, 'head b', title);
  for (const [name, look, text] of TAGS) {
    if (!heap[name].has(at.p)) continue;
    out += label(x, at.y + 12, 'head ' + look, text);
    x += measure(text, true) + 12;
  }
  const kind = pageKind(at.p);
  const fits = (text) => x + measure(text) <= at.x + plan.w;
  const text = [kind, kind.replace(/ cells of (\d+) words/, ' cells of $1'), kind.split(',')[0], ''].find(fits);
  return out + (text ? label(x, at.y + 12, 'head soft', text) : '');
}

function drawBorders(at, width, isTaken) {
  const y = at.rowsY - 3;
  const h = at.h + 6;
  let out = path(isTaken ? 'frame' : 'freepage', box(at.x + 0.5, y + 0.5, width - 1, h - 1));
  if (heap.carried.has(at.p)) out += path('carried', box(at.x - 3, y - 3, width + 6, h + 6));
  if (heap.dirty.has(at.p)) out += path('dirty', box(at.x, y, width, h));
  return out;
}

function drawCells(at, width) {
  const drawing = { text: '' };
  for (const [, name] of CELL_LOOKS) drawing[name] = '';
  if (heap.head[at.p] >= 0) {
    const object = heap.objects.get(heap.head[at.p] * PAGE);
    drawCell(drawing, at.p * PAGE, PAGE, object);
  } else {
    drawSmallCells(drawing, at, width);
  }
  return CELL_LOOKS.map(([look, name]) => path(look, drawing[name])).join('') + drawing.text;
}

// The cells that are ever used are drawn, the rest is counted.
function drawSmallCells(drawing, at, width) {
  const size = heap.size[at.p];
  const all = Math.floor(PAGE / size);
  const drawn = Math.min(all, Math.ceil(at.extent / size));
  let free = 0;
  for (let i = 0; i < all; i++) {
    const place = at.p * PAGE + i * size;
    const object = heap.objects.get(place);
    if (i < drawn) drawCell(drawing, place, size, object);
    else if (!object) free++;
  }
  const s = free ? spot(at.p * PAGE + (drawn - 1) * size) : null;
  if (!s) return;
  const x = s.x + size * plan.u + 8;
  const text = `and ${many(free, 'free cell')}`;
  if (x + measure(text) < at.x + width) drawing.text += label(x, s.y + plan.rowH / 2 + 3, 'soft', text);
}

// A cell, or the part of a large object that lies on one page.
function drawCell(drawing, place, words, object) {
  for (const piece of pieces(place, words)) {
    drawBands(drawing, piece, object);
    if (object && plan.u >= 4) drawInside(drawing, piece, object);
  }
}

function drawBands(drawing, { x, y, w }, object) {
  const gap = w >= 9 ? 2 : w >= 5 ? 1 : 0.5;
  const left = x + gap / 2;
  const width = Math.max(0.5, w - gap);
  if (!object) {
    drawing.f += box(left, y + 0.5, width, plan.rowH - 1);
    return;
  }
  const known = knownOf(object);
  drawing[known] += box(left, y + 0.5, width, plan.upH - 0.5);
  drawing[truthOf(object)] += box(left, y + plan.upH + 1, width, plan.lowH - 0.5);
  if (known === 'g' || !plan.entrySet.has(object.place)) return;
  const corner = Math.min(9, w * 0.6);
  drawing.entries += `M${x + w - gap / 2 - corner} ${y + 0.5}h${corner}v${Math.min(9, plan.upH * 0.7)}z`;
}

// the object's number, and its words
function drawInside(drawing, piece, object) {
  if (object.forgotten) {
    if (plan.isBig) drawing.text += label(piece.x + 5, piece.y + 12, 'onhatch', '#' + object.birth);
    return;
  }
  const isMarked = heap.marked.has(object.place);
  if (piece.at === object.place) drawing.text += drawNumber(piece, object, isMarked ? 'onmark ' : '');
  for (let i = piece.at; i < piece.at + piece.n; i++) {
    const x = piece.x + (i - piece.at) * plan.u;
    if (plan.isBig && i > piece.at) drawing.separators += `M${x} ${piece.y + 16}v${plan.upH - 18}`;
    drawWord(drawing, x, piece.y, heap.word(i), object, isMarked);
  }
}

function drawNumber(piece, object, ink) {
  const text = '#' + object.birth;
  if (plan.isBig) return label(piece.x + 5, piece.y + 12, ink + 'b', text);
  if (plan.rowH < 18 || piece.w < 76) return '';
  return label(piece.x + piece.w - 13, piece.y + plan.upH / 2 + 3.5, ink + 'mono end', text);
}

function drawWord(drawing, x, y, word, object, isMarked) {
  const ink = isMarked ? 'onmark ' : '';
  const besideDot = plan.isWide ? plan.u - 14 : plan.u;
  const write = (look, text, room) => {
    drawing.text += label(x + room / 2, y + 34, look + 'mono mid', text);
  };
  if (word === 0) {
    if (plan.isWide) write(ink || 'soft ', '0', besideDot);
  } else if (isInHeap(word) && !object.kind) {
    if (plan.isWide) write(ink, told(word), besideDot);
    drawing[isMarked ? 'dotsOnMarked' : 'dots'] += wordDot(x, y);
  } else if (plan.isBig) {
    write(ink, shortNumber(String(word)), plan.u);
  }
}

// a number that has to fit in a cell's word
function shortNumber(text) {
  if (text.length * 6.1 <= plan.u) return text;
  return plan.isWide ? text.slice(0, 4) + '..' : '..';
}

// the dot of a word that points into the heap
function wordDot(x, y) {
  const r = plan.isBig ? 3 : plan.u >= 8 ? 1.8 : plan.u >= 5 ? 1.2 : 0.8;
  const left = (x + plan.dotX - r).toFixed(2);
  return `M${left} ${dotY(y)}a${r} ${r} 0 1 0 ${2 * r} 0a${r} ${r} 0 1 0 ${-2 * r} 0`;
}

// where the dots of a row stand
const dotY = (y) => (plan.isBig ? y + 30 : y + plan.upH / 2);
