'use strict';
// The list of the script's lines and replies, of which only those in sight are made.

let ROW = 20; // how high a row is, in the reader's font

const shortReply = (reply) => reply.replace(/^refused (\d+) /, '$1 ');

function rowLooks(i, record) {
  return [
    'row',
    i === run.at && 'at',
    /^gc /.test(record.c) && 'gc',
    /^refused/.test(record.r) && 'no',
    record.no && 'refused',
    run.series.phase[i] && 'mk',
  ].filter(Boolean).join(' ');
}

function drawListRow(i) {
  const record = run.recordOf(i);
  const title = `${escaped(record.c)} = ${escaped(record.r)}`;
  return `<div id="row-${i}" class="${rowLooks(i, record)}" role="option" aria-selected="${i === run.at}" data-i="${i}"
 aria-posinset="${i + 1}" aria-setsize="${run.last + 1}" style="top:${i * ROW}px" title="${title}"><span class="n">${i}</span>` +
    `<span class="c">${i ? escaped(record.c) : '<i>an empty heap</i>'}</span>` +
    `<span class="r">${escaped(shortReply(record.r))}</span></div>`;
}

function drawList() {
  const list = $('list');
  const from = Math.max(0, Math.floor(list.scrollTop / ROW) - 5);
  const to = Math.min(run.last, Math.ceil((list.scrollTop + list.clientHeight) / ROW) + 5);
  let out = '';
  for (let i = from; i <= to; i++) out += drawListRow(i);
  if (run.at < from || run.at > to) out += drawListRow(run.at); // the one that has the focus is always there
  $('rows').innerHTML = out;
  list.setAttribute('aria-activedescendant', `row-${run.at}`);
}

// Takes the height of a row from the font, and gives the list its own.
function measureRow() {
  $('rows').innerHTML = '<div class="row">0</div>';
  ROW = Math.ceil($('rows').firstChild.getBoundingClientRect().height);
  $('rows').style.height = `${(run.last + 1) * ROW}px`;
}

// Brings the line into sight.
function showRow() {
  const list = $('list');
  const y = run.at * ROW;
  const margin = Math.min(60, list.clientHeight / 4);
  if (y < list.scrollTop + margin) {
    list.scrollTop = Math.max(0, y - margin);
  } else if (y + ROW > list.scrollTop + list.clientHeight - margin) {
    list.scrollTop = y + ROW + margin - list.clientHeight;
  }
  drawList();
}
