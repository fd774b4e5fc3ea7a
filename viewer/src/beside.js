'use strict';
// A page beside another (beside.html): it tells where it went, and goes where the other is.

const isBeside = window.parent !== window;

function tellOther(isStart) {
  if (!isBeside) return;
  window.parent.postMessage({ mpheap: 'at', line: run.at, isStart, isRefused: !!run.isRefused }, '*');
}

// What the other leads to isn't told to readers of the screen: they hear the page that has the focus.
function followOther({ source, data }) {
  if (source !== window.parent || data?.mpheap !== 'go') return;
  $('say').setAttribute('aria-live', 'off');
  go(data.line, true);
  setTimeout(() => $('say').setAttribute('aria-live', 'polite'), 100);
}
