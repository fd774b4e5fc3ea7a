'use strict';
// The keys, and what they do. While the heap has the focus, those that elsewhere lead from line to line pick objects.

const KEYS = {
  ArrowRight: () => go(run.at + 1),
  ArrowDown: () => go(run.at + 1),
  j: () => go(run.at + 1),
  ArrowLeft: () => go(run.at - 1),
  ArrowUp: () => go(run.at - 1),
  k: () => go(run.at - 1),
  PageDown: () => go(run.at + 10),
  PageUp: () => go(run.at - 10),
  Home: () => go(0),
  End: () => go(run.last),
  ']': () => go(collectorLine(1)),
  '[': () => go(collectorLine(-1)),
  ' ': () => play(!playing),
  n: () => nextObject(1),
  p: () => nextObject(-1),
  r: () => nextRoot(1),
  R: () => nextRoot(-1),
  w: () => nextWord(1),
  W: () => nextWord(-1),
  f: followPointer,
  b: backAlong,
  g: goToStore,
  s: save,
  a: nextArrows,
  '?': () => $('keys').showModal(),
  Escape: letGo,
};

const KEYS_OF_HEAP = {
  ArrowRight: () => nextObject(1),
  ArrowDown: () => nextObject(1),
  ArrowLeft: () => nextObject(-1),
  ArrowUp: () => nextObject(-1),
  Home: () => endObject(false),
  End: () => endObject(true),
  Enter: followPointer,
};

// A key that means something to the element that has the focus, or is switched off, does nothing here.
function isTaken({ key, target }) {
  const { tagName } = target;
  if (key.length === 1 && key !== ' ' && !$('letters').checked) return true;
  return tagName === 'SELECT' || (tagName === 'BUTTON' && (key === ' ' || key === 'Enter'));
}

function onKey(event) {
  if (event.ctrlKey || event.metaKey || event.altKey || $('keys').open || isTaken(event)) return;
  const act = (event.target.id === 'scroll' && KEYS_OF_HEAP[event.key]) || KEYS[event.key];
  if (!act) return;
  event.preventDefault();
  act();
}
