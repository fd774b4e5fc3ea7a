'use strict';
// What a line did, in words. Each function answers some parts of the sentence.

const isRefused = (record) => /^refused/.test(record.r);

function sentence() {
  const i = run.at;
  if (!i) return 'Before the first line. Click a line, or press the right arrow key.';
  const record = run.record;
  if (record.no) return ofRefused(record);
  const parts = [
    ...ofPhase(record), ...ofNew(record), ...ofWords(record), ...ofRead(record), ...ofMarks(record),
    ...ofPages(record, i), ...ofSweep(record), ...ofReached(record, i), ...ofLinks(record), ...ofEnd(record, i),
  ];
  if (!parts.length) parts.push('nothing of the heap changes');
  return capital(parts.join('; ')) + '.';
}

// What the checker says of a line that it refuses, as it says it. Behind what it says first, objects that are named by
// their bases have their numbers added.
function ofRefused({ no, says: [first, ...more] }) {
  const numbered = (said, address) => (heap.find(+address) ? `${said} (${told(+address)})` : said);
  const rest = more.map((text) => `; ${text.replace(/\bat (\d+)/g, numbered)}`).join('');
  return `line ${no}: ${first}${rest}. So this line of the run is not legal.`;
}

function ofPhase(record) {
  if (record.phase === 0) return ['the cycle ends'];
  if (record.phase !== 1) return [];
  const n = heap.touched.size;
  return [`a cycle begins to mark; touched so far ${n === 1 ? 'is' : 'are'} ${many(n, 'object')}`];
}

function ofNew(record) {
  return (record.new || []).map(([place, birth, words, kind]) => {
    const where = `page ${pageOf(place)}${words > MOST_SMALL ? '' : `, cell ${Math.floor(wordInPage(place) / words)}`}`;
    const marked = heap.marked.has(place) ? ', marked as it comes' : '';
    return `object #${birth} comes: ${words} words, ${kind ? 'atomic' : 'normal'}, ${where}${marked}`;
  });
}

function ofWords(record) {
  const wrote = (record.wrote || []).slice(0, 3).map(([place, word]) => {
    const object = heap.objectOver(place);
    const which = object ? `${place - object.place} of #${object.birth}` : `${place} of the heap`;
    return `word ${which} becomes ${told(word)}`;
  });
  const regs = (record.regs || []).slice(0, 2).map(([slot, n, word]) => {
    return `register ${n} of mutator ${slot} becomes ${toldOfRegister(word)}`;
  });
  const globals = (record.globals || []).slice(0, 3).map(([n, word]) => `global ${n} becomes ${told(word)}`);
  return [...wrote, ...regs, ...(record.stacks || []).map(ofStack), ...globals];
}

function toldOfRegister(word) {
  if (heap.find(word)) return told(word);
  return isInHeap(word) ? `${told(word)}, which points into nothing` : word;
}

function ofStack([slot, , ...pushed]) {
  const n = heap.mutators.get(slot).stack.length;
  if (!pushed.length) return `the stack of mutator ${slot} is ${n ? `${n} deep` : 'empty'} now`;
  const go = pushed.length === 1 ? 'goes' : 'go';
  return `${pushed.map(told).join(', ')} ${go} on the stack of mutator ${slot}, ${n} deep now`;
}

function ofRead(record) {
  if (!record.read) return [];
  const [roots, words, pages] = record.read;
  const parts = [];
  if (roots) parts.push(many(roots, 'root word'));
  if (words) parts.push(`${many(words, 'word')} of ${readFrom(record)}`);
  const who = /finish|collect/.test(record.c) ? 'the pause looks at ' : 'looks at ';
  return [who + (parts.join(' and ') || 'nothing') + (pages ? `, with ${many(pages, 'dirty page')}` : '')];
}

// the objects whose words were read, where the trace says it
function readFrom(record) {
  if (!record.looked) return 'marked objects';
  const places = record.looked.map(([place]) => heap.objectOver(place)?.place ?? place);
  return few([...new Set(places)], named);
}

function ofMarks(record) {
  if (!record.marked) return [];
  const whole = record.marked['='];
  const fresh = new Set((record.new || []).map(([place]) => place));
  const marked = record.marked['+'] ? record.marked['+'].filter((place) => !fresh.has(place)) : whole || [];
  return [
    ...(whole && !whole.length ? ['all marks are cleared'] : []),
    ...(marked.length ? [`marks ${few(marked, named)}`] : []),
  ];
}

function ofPages(record, i) {
  const plain = (p) => p;
  const which = (list) => `${list.length === 1 ? 'page' : 'pages'} ${few(list, plain)} ${isOrAre(list)}`;
  const { dirty, carried } = record;
  const parts = [];
  if (dirty?.['+']) parts.push(`${which(dirty['+'])} dirty now`);
  const cleaned = run.series.dirty[i - 1] - run.series.dirty[i];
  if ((dirty?.['-'] || dirty?.['=']) && cleaned > 0) parts.push(`${many(cleaned, 'page is', 'pages are')} clean again`);
  if (carried?.['+']) parts.push(`${which(carried['+'])} carried: a word there points into nothing marked`);
  return parts;
}

function ofSweep(record) {
  const parts = [];
  const { forget } = record;
  if (forget) {
    const cells = forget.length === 1 ? 'its cell is' : 'their cells are';
    parts.push(`forgets ${few(forget, named)}: ${cells} still to be swept`);
  }
  const fresh = new Set((record.new || []).map(([place]) => place));
  const freed = (record.free || []).filter((place) => !fresh.has(place));
  if (freed.length) {
    const [page, give] = freed.length === 1 ? ['page', 'gives its'] : ['pages', 'give their'];
    const pages = [...new Set(freed.map(pageOf))];
    parts.push(`${many(freed.length, 'object')} of ${page} ${few(pages, (p) => p)} ${give} words back`);
  }
  return parts;
}

function ofReached(record, i) {
  const lost = run.series.reached[i - 1] - run.series.reached[i];
  const hasLost = (record.reached?.['-'] || record.reached?.['=']) && lost > 0 && !/free/.test(record.c);
  return hasLost ? [`${many(lost, 'word is', 'words are')} no longer reached`] : [];
}

function ofLinks(record) {
  return (record.links || []).slice(0, 3).map(([place, base]) => {
    if (base !== null) return `a link names ${named(base)}`;
    return `the link in word ${wordInPage(place)} of page ${pageOf(place)} is gone`;
  });
}

function ofEnd(record, i) {
  if (isRefused(record)) {
    const swept = run.hasCollector && /6 Full/.test(record.r) ? ', but that all pending pages are swept' : '';
    return ['a refused line changes nothing' + swept];
  }
  const floating = run.series.kept[i] - run.series.reached[i];
  if (!ENDS_A_CYCLE.test(record.c) || floating <= 0) return [];
  return [`${many(floating, 'word')} that nothing reaches ${floating === 1 ? 'stays' : 'stay'}: floating garbage`];
}

function drawSentence() {
  const { c, r } = run.record;
  const text = sentence();
  const line = `<code>${escaped(c)}</code> &nbsp;<span class="what">answers</span> <code>${escaped(r)}</code>`;
  $('say').title = text;
  $('say').classList.toggle('refused', !!run.record.no);
  $('say').innerHTML =
    (run.at ? line : '<code>The heap is empty</code>') + `<span class="what more">${escaped(text)}</span>`;
}
