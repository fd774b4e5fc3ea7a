'use strict';
// The inspector: what is picked, and else the heap as a whole. What leads elsewhere is a button (picking.js).

const infoRow = (name, value) => `<tr><th scope="row">${name}</th><td>${value}</td></tr>`;

function infoTable(title, rows) {
  return `<h2>${escaped(title)}</h2><table>${rows.map((row) => infoRow(...row)).join('')}</table>`;
}

// a button that does one of ACTS
function to(act, arg, text, isChosen) {
  return `<button class="to${isChosen ? ' chosen' : ''}" data-act="${act}" data-arg="${arg}">${escaped(text)}</button>`;
}

const toLine = (line) => (line ? to('line', line, `line ${grouped(line)}`) : 'before the first line');

// A button that had the focus keeps it.
function drawInfo() {
  const focus = view.hovered || view.picked;
  const anchor = focus && focus.key && !('place' in focus) ? anchorOf(focus.key) : null;
  const object = focus && 'place' in focus ? heap.objects.get(focus.place) : null;
  const info = $('info');
  const had = info.contains(document.activeElement) ? document.activeElement.dataset : null;
  info.innerHTML = anchor ? infoOfRoot(anchor) : object ? infoOfObject(object) : infoOfHeap();
  if (!had) return;
  const same = had.act && info.querySelector(`[data-act="${had.act}"][data-arg="${had.arg}"]`);
  (same || info).focus({ preventScroll: true });
}

function infoOfRoot({ key, word, says }) {
  const line = isEntryKey(key) ? 0 : run.writes.last(keyOfRoot(key), run.at);
  return infoTable(capital(says), [
    ['word', escaped(word)],
    ['points into', pointsInto(word)],
    ...(line ? [['stored by', toLine(line)]] : []),
  ]);
}

function pointsInto(word) {
  const object = heap.find(word);
  if (!object) return isInHeap(word) ? `nothing (page ${pageOf(placeOf(word))})` : 'nothing: no address of the heap';
  const bytes = word - addressOf(object.place);
  return `${to('pick', object.place, '#' + object.birth)}, ${bytes ? `${bytes} bytes in` : 'its base'}`;
}

function infoOfHeap() {
  const objects = heap.objects.size - heap.awaiting;
  const { kept, reached } = heap.sum;
  const marked = run.hasCollector ? `, ${grouped(heap.marked.size)} marked` : '';
  const seen = `${grouped(heap.reached.size)} reached${marked}`;
  return infoTable(`After line ${grouped(run.at)}`, [
    ['phase', heap.phase ? 'a cycle is marking' : 'idle'],
    ['objects', `${grouped(objects)}, of which ${seen}`],
    ['words', `${grouped(kept)}, of which ${grouped(reached)} reached`],
    ['collections', grouped(heap.count)],
  ]) + '<p>Point at a cell or a register, click to keep it; or press n.</p>';
}

function infoOfObject(object) {
  return infoTable('Object #' + object.birth, [
    ['base', addressOf(object.place)],
    ['place', `page ${pageOf(object.place)}, word ${wordInPage(object.place)}`],
    ['size', `${many(object.words, 'word')}, ${object.kind ? 'atomic' : 'normal'}`],
    ...(run.hasCollector ? [['collector', saysKnown(object)]] : []),
    ['truth', saysTruth(object)],
    ['made by', toLine(run.writes.last(keyOfMade(object.place), run.at))],
    ['from', saysFrom(object)],
    ['words', saysWords(object)],
  ]);
}

function saysKnown(object) {
  const onStack = plan.entrySet.has(object.place) ? ', on the mark stack' : '';
  return { u: 'not marked', m: 'marked' + onStack, g: 'forgotten, still to be swept' }[knownOf(object)];
}

function saysTruth(object) {
  if (object.forgotten) return 'no object any more';
  const neither = heap.phase ? 'neither reached nor touched' : 'not reached';
  return { r: 'reached', t: 'touched, not reached: this cycle keeps it', n: neither }[truthOf(object)];
}

// who points into the object, as buttons
function pointers(object) {
  const from = [];
  for (const [slot, { regs, stack }] of heap.mutators) {
    regs.forEach((word, n) => {
      if (heap.find(word) === object) from.push(to('root', `r${slot}.${n}`, `r${n} of mutator ${slot}`));
    });
    stack.forEach((word, n) => {
      if (heap.find(word) === object) from.push(to('root', `s${slot}.${n}`, `stack of mutator ${slot}, word ${n}`));
    });
  }
  heap.globals.forEach((word, n) => heap.find(word) === object && from.push(to('root', 'g' + n, 'global ' + n)));
  for (const [i, , holder] of referrers(object.place)) {
    from.push(to('word', i, `#${holder.birth} word ${i - holder.place}`));
  }
  return from;
}

function saysFrom(object) {
  if (object.forgotten) return '';
  const from = pointers(object);
  if (!from.length) return 'nothing points into it';
  const shown = from.slice(0, 10).join('; ');
  return from.length > 10 ? `${shown}; and ${from.length - 10} more` : shown;
}

function saysWord(object, word, place) {
  if (!isInHeap(word)) return escaped(word);
  if (!heap.find(word)) return `${word} (into nothing)`;
  if (object.kind) return `${word} (atomic: points into nothing)`;
  return to('follow', place, `→ ${told(word)}`, view.word === place);
}

// the words of an object that aren't 0, each with the line that stored it
function saysWords(object) {
  if (object.forgotten) return '';
  const words = [];
  for (let i = object.place; i < object.place + object.words && words.length < 13; i++) {
    if (heap.word(i) === 0) continue;
    const line = run.writes.last(i, run.at);
    words.push(`${i - object.place}: ${saysWord(object, heap.word(i), i)} by ${toLine(line)}`);
  }
  if (!words.length) return 'all 0';
  return words.slice(0, 12).join('<br>') + (words.length > 12 ? '<br>..' : '');
}
