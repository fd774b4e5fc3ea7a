'use strict';
// Moving through the run: to a line, and by itself.

let playing = 0;
let addressTimer = 0;

// Shows the state after a line; quietly, the page's address stays as it is.
function go(line, isQuiet) {
  const was = run.at;
  run.go(line);
  dropLost();
  pickAbout();
  view.hovered = null;
  showPosition();
  drawScene(false);
  if (run.at !== was) follow();
  drawSentence();
  drawInfo();
  showRow();
  drawCursor();
  if (isQuiet || run.at === was) return;
  noteAddress();
  tellOther(false);
}

// A picked object that isn't there any more is let go.
function dropLost() {
  if (!view.picked || !('place' in view.picked)) return;
  if (heap.objects.get(view.picked.place)?.birth === view.picked.birth) return;
  Object.assign(view, { picked: null, word: null });
}

// The object that a refused line is about is picked.
function pickAbout() {
  const object = heap.objects.get(run.record.about);
  if (!object) return;
  Object.assign(view, { picked: { place: object.place, birth: object.birth }, word: null });
}

function showPosition() {
  $('slider').value = run.at;
  $('slider').setAttribute('aria-valuetext', `line ${run.at}: ${run.record.c || 'an empty heap'}`);
  $('where').textContent = `line ${grouped(run.at)} of ${grouped(run.last)}`;
  $('facts').innerHTML = facts().join(' &middot; ');
}

function facts() {
  return [
    many(heap.pages, 'page'),
    `<b>${heap.phase ? 'marking' : 'idle'}</b>`,
    ...(run.hasCollector ? factsOfCollector() : ['a run that was written down; nothing is known of its collector']),
    escaped(sourceText()),
  ];
}

// what the run comes from, which says how far it can be believed
const sourceText = () => (run.about.source ? `from ${run.about.source}` : 'the trace doesn’t say what it comes from');

function factsOfCollector() {
  return [
    many(heap.dirty.size, 'dirty page'),
    ...(run.ever.hasCarried ? [`${heap.carried.size} carried`] : []),
    `${heap.pending.size} to sweep`,
  ];
}

// Browsers slow down pages whose address changes at each step, so it waits for a rest.
function noteAddress() {
  if (isBeside) return;
  clearTimeout(addressTimer);
  addressTimer = setTimeout(() => history.replaceState(null, '', '#line=' + run.at), 200);
}

function lineOfAddress() {
  const found = /(?:^#|&)line=(\d+)/.exec(location.hash);
  return found ? +found[1] : null;
}

// Brings a page that the line changed into sight, if none of them is.
function follow() {
  if (plan.isMap) return;
  const scroll = $('scroll');
  const top = scroll.scrollTop;
  const bottom = top + scroll.clientHeight;
  const pages = [];
  addPagesOf(run.record, pages);
  const spots = pages.map((p) => plan.pages.get(p)).filter((at) => at && !at.unused);
  const isSeen = (at) => at.rowsY + at.h > top && at.rowsY < bottom - 20;
  if (!spots.length || spots.some(isSeen)) return;
  scroll.scrollTop = Math.max(0, spots[0].rowsY - scroll.clientHeight / 3);
  followScroll();
}

// the next line of the collector, or the one before
function collectorLine(step) {
  for (let i = run.at + step; i >= 1 && i <= run.last; i += step) {
    if (run.ofCollector[i]) return i;
  }
  return run.at;
}

function play(isOn) {
  clearInterval(playing);
  playing = 0;
  if (isOn && run.at === run.last) go(0);
  if (isOn) playing = setInterval(playOn, run.last > 300 ? 80 : 600);
  $('play').classList.toggle('on', !!playing);
  $('play').setAttribute('aria-label', playing ? 'Stop' : 'Play');
  $('say').setAttribute('aria-live', playing ? 'off' : 'polite');
}

function playOn() {
  if (run.at >= run.last) play(false);
  else go(run.at + 1);
}

function nextArrows() {
  $('arrows').selectedIndex = ($('arrows').selectedIndex + 1) % 3;
  drawOver();
}

function letGo() {
  Object.assign(view, { picked: null, word: null, trail: [], hovered: null });
  drawOver();
  drawInfo();
  tellPicked();
}
