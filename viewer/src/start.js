'use strict';
// The beginning: the trace is read, everything is given its size, and the page listens.

function size() {
  const isNarrow = window.innerWidth <= 900;
  const isStacked = isNarrow || window.innerHeight <= 560; // as in frame.css
  measureRow();
  drawPlot();
  const scroll = $('scroll');
  const width = Math.max(288, scroll.offsetWidth - (isNarrow ? 16 : 28));
  plan = makePlan(width - barWidth(), isStacked ? window.innerHeight * 0.7 : scroll.clientHeight - 6);
  makeLegend();
  drawScene(true);
  drawCursor();
  showRow();
}

// how wide a scroll bar is that may come
function barWidth() {
  const { style } = $('scroll');
  style.overflowY = 'scroll';
  const width = $('scroll').offsetWidth - $('scroll').clientWidth;
  style.overflowY = '';
  return width;
}

function listenToControls() {
  $('slider').addEventListener('input', () => go(+$('slider').value));
  $('first').onclick = () => go(0);
  $('back').onclick = () => go(run.at - 1);
  $('next').onclick = () => go(run.at + 1);
  $('last').onclick = () => go(run.last);
  $('play').onclick = () => play(!playing);
  $('save').onclick = save;
  $('help').onclick = () => $('keys').showModal();
  $('arrows').onchange = drawOver;
  $('info').addEventListener('click', (event) => {
    const button = event.target.closest('[data-act]');
    if (button) ACTS[button.dataset.act](button.dataset.arg);
  });
  document.addEventListener('keydown', onKey);
}

function listenToPictures() {
  $('list').addEventListener('scroll', drawList);
  $('rows').addEventListener('click', (event) => {
    const row = event.target.closest('.row');
    if (row) go(+row.dataset.i);
  });
  $('plot').addEventListener('click', (event) => {
    const line = lineAt(event.clientX - $('plot').getBoundingClientRect().left);
    if (line !== null) go(line);
  });
  $('scene').addEventListener('mousemove', onMove);
  $('scene').addEventListener('mouseleave', () => hover(null));
  $('scene').addEventListener('click', onClick);
  $('scroll').addEventListener('scroll', followScroll);
}

function listenToWindow() {
  let sizing = 0;
  window.addEventListener('resize', () => {
    cancelAnimationFrame(sizing);
    sizing = requestAnimationFrame(size);
  });
  window.addEventListener('hashchange', () => {
    const line = lineOfAddress();
    if (line !== null && line !== run.at) go(line, true);
  });
  window.addEventListener('beforeprint', () => {
    setShift(0);
    redrawRoots();
  });
  window.addEventListener('afterprint', followScroll);
}

function start() {
  $('defs').innerHTML = DEFS;
  run = new Run($('trace').textContent);
  heap = run.heap;
  document.title = run.about.title + ': a run of the heap';
  $('title').textContent = run.about.title;
  $('slider').max = run.last;
  $('list').style.setProperty('--digits', `${Math.max(3, String(run.last).length + 1)}ch`);
  run.go(0);
  size();
  go(lineOfAddress() ?? (run.isRefused ? run.last : 0), true);
  tellPicked();
  listenToControls();
  listenToPictures();
  listenToWindow();
  if (isBeside) window.addEventListener('message', followOther);
  tellOther(true);
}

document.addEventListener('DOMContentLoaded', () => {
  try {
    start();
  } catch (error) {
    $('say').textContent = 'This page has no readable trace: ' + error.message;
    throw error;
  }
  window.viewer = { go, run, heap, whole: () => wholeState(heap), picture, at: () => run.at };
});
