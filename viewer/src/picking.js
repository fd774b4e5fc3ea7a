'use strict';
// Picking by keys and by the inspector's buttons: an object, a root, a word; following what it points into, and going to
// the line that stored it. What is picked is told to readers of the screen.

const ACTS = {
  pick: (place) => pickObject(+place),
  root: (key) => pickRoot(key),
  word: (place) => pickWord(+place),
  follow: (place) => {
    pickWord(+place);
    followPointer();
  },
  line: (line) => go(+line),
};

function pickObject(place, word = null) {
  const object = heap.objects.get(place);
  if (!object) return;
  view.picked = { place, birth: object.birth };
  view.word = word;
  showPageOf(place);
  showPicked(place);
}

// a word of an object, and with it the object
function pickWord(place) {
  const object = heap.objectOver(place);
  if (object) pickObject(object.place, place);
}

function pickRoot(key) {
  const anchor = anchorOf(key);
  if (!anchor) return tell('There is no room for this root in the picture');
  view.picked = { key, word: anchor.word };
  view.word = null;
  showPicked(null);
}

// Shows what was picked just now, and brings an object's page into sight.
function showPicked(place) {
  view.hovered = null;
  if (place !== null) bringIntoSight(place);
  drawOver();
  drawInfo();
  tellPicked();
}

function bringIntoSight(place) {
  const s = spot(place);
  if (!s) return;
  const scroll = $('scroll');
  if (s.y < scroll.scrollTop || s.y + plan.rowH > scroll.scrollTop + scroll.clientHeight) {
    scroll.scrollTop = Math.max(0, s.y - scroll.clientHeight / 3);
    followScroll();
  }
}

// -- to the next one

const nextIn = (list, at, step) => list[(at + step + list.length) % list.length];

function nextObject(step) {
  const places = [...heap.objects.keys()].sort((a, b) => a - b);
  if (!places.length) return;
  const at = view.picked && 'place' in view.picked ? places.indexOf(view.picked.place) : -1;
  pickObject(at < 0 ? places[step > 0 ? 0 : places.length - 1] : nextIn(places, at, step));
}

function endObject(isLast) {
  view.picked = null;
  nextObject(isLast ? -1 : 1);
}

function nextRoot(step) {
  const keys = view.anchors.filter(({ word }) => heap.find(word)).map(({ key }) => key);
  if (!keys.length) return;
  const at = view.picked?.key ? keys.indexOf(view.picked.key) : -1;
  pickRoot(at < 0 ? keys[step > 0 ? 0 : keys.length - 1] : nextIn(keys, at, step));
}

// the places of the picked object's words that aren't 0
function wordsOfPicked() {
  const object = view.picked && heap.objects.get(view.picked.place);
  if (!object || object.forgotten) return [];
  return [...Array(object.words).keys()].map((i) => object.place + i).filter((place) => heap.word(place) !== 0);
}

function nextWord(step) {
  const places = wordsOfPicked();
  if (!places.length) return;
  const at = places.indexOf(view.word);
  pickWord(at < 0 ? places[step > 0 ? 0 : places.length - 1] : nextIn(places, at, step));
}

// -- along pointers, and to lines

// the word whose pointer is followed: the one that is chosen, else the first of the object that points into something
function wordToFollow() {
  if (!view.picked) return null;
  if (view.picked.key) return anchorOf(view.picked.key)?.word ?? null;
  const object = heap.objects.get(view.picked.place);
  if (!object || object.kind) return null;
  const places = view.word === null ? wordsOfPicked() : [view.word];
  const place = places.find((i) => heap.find(heap.plainWord(i)));
  return place === undefined ? null : heap.plainWord(place);
}

function followPointer() {
  const word = wordToFollow();
  const object = word === null ? null : heap.find(word);
  if (!object) {
    tell('Nothing is pointed into from here');
    return;
  }
  view.trail.push({ ...view.picked, at: view.word });
  pickObject(object.place);
}

function backAlong() {
  const from = view.trail.pop();
  if (!from) return;
  if (from.key) pickRoot(from.key);
  else pickObject(from.place, from.at);
}

// the line that stored what is picked, or made the object; 0 where there is none
function lineOfPicked() {
  const { picked, word } = view;
  if (!picked) return 0;
  if (picked.key) return isEntryKey(picked.key) ? 0 : run.writes.last(keyOfRoot(picked.key), run.at);
  return (word === null ? 0 : run.writes.last(word, run.at)) || run.writes.last(keyOfMade(picked.place), run.at);
}

function goToStore() {
  const line = lineOfPicked();
  if (line) go(line);
  else tell('No line stored it');
}

// -- what readers of the screen hear

function tell(text) {
  $('told').textContent = text;
}

function tellPicked() {
  const { picked, word } = view;
  const object = picked && heap.objects.get(picked.place);
  const anchor = picked?.key && anchorOf(picked.key);
  const text = object ? toldOfObject(object, word) : anchor ? `${anchor.says}: ${told(anchor.word)}` : 'No object is picked';
  $('chosen').textContent = text;
  $('chosen').setAttribute('aria-selected', String(!!(object || anchor)));
  tell(text);
}

function toldOfObject(object, word) {
  const known = run.hasCollector ? [saysKnown(object)] : [];
  const parts = [`page ${pageOf(object.place)}`, many(object.words, 'word'), ...known, saysTruth(object)];
  if (word !== null) parts.push(`word ${word - object.place} is ${told(heap.word(word))}`);
  return `Object ${object.birth}: ${parts.join(', ')}`;
}
