'use strict';
// Small helpers for text and for elements of the page.

const $ = (id) => document.getElementById(id);

const ESCAPES = { '&': '&amp;', '<': '&lt;', '>': '&gt;', '"': '&quot;' };
const escaped = (text) => String(text).replace(/[&<>"]/g, (c) => ESCAPES[c]);

const grouped = (n) => n.toLocaleString('en');

// "1 page", "12 pages"
const many = (n, one, more) => `${grouped(n)} ${n === 1 ? one : more || one + 's'}`;

// the first of a list, and how many more there are
function few(list, name) {
  if (list.length <= 6) return list.map(name).join(', ');
  return `${list.slice(0, 5).map(name).join(', ')} and ${list.length - 5} more`;
}

const isOrAre = (list) => (list.length === 1 ? 'is' : 'are');

const capital = (text) => text[0].toUpperCase() + text.slice(1);
