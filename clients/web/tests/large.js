'use strict';
// Much: 16 MB of exchanges, a log of 50 MB, one message of 16 MB, and a value of 32 million
// characters. No task of the page may hold it for long, and the first row is there soon.
const messages = require('./messages.js'), { hexOf } = require('./forms.js');
const { until } = require('./driver.js'), { seen } = require('./harness.js');
const LONGEST = 700; // milliseconds that one task may take: a call of the module is one
const FIRST = 300; // milliseconds to the first row
const LOG = { size: 50e6, longest: 200, first: 2000 }; // the same of a log
const LOOP = 1e6, USUAL = 1; // milliseconds that so many turns take where nothing else runs

function turn() {
  let sum = 0;
  for (let i = 0; i < LOOP; i++) sum = sum * 31 + i | 0;
  return sum;
}
// How much slower than that the machine is now, for this process; a limit is as much longer.
function slowness() {
  for (let i = 0; i < 10; i++) turn();
  const start = performance.now();
  for (let i = 0; i < 100; i++) turn();
  return Math.max(1, (performance.now() - start) / 100 / USUAL);
}
const stretch = { by: 1 };
async function startWatch(page) {
  stretch.by = slowness();
  await page.call(watch);
}
async function endWatch(page) {
  const made = await page.call(watched);
  const by = Math.max(stretch.by, slowness());
  const words = by > 1.5 ? ` (the machine is ${Math.round(by)} times slower than usual)` : '';
  return { ...made, words, isSoon: made.first < FIRST * by, isShort: made.longest < LONGEST * by };
}

// Notes the longest time between two beats of the page, and when the first row was there.
function watch() {
  window.beats = { longest: 0, first: null, start: performance.now(), last: performance.now() };
  const beat = () => {
    const now = performance.now(), beats = window.beats;
    beats.longest = Math.max(beats.longest, now - beats.last);
    beats.last = now;
    const isFirst = beats.first === null && document.querySelector('tr.exchange');
    if (isFirst) beats.first = now - beats.start;
    if (!beats.isOver) setTimeout(beat, 0);
  };
  beat();
}
function watched() {
  window.beats.isOver = true;
  return { longest: Math.round(window.beats.longest), first: Math.round(window.beats.first) };
}
// Gives files to the page, which are there already, as a browser's file is.
const keep = (name, bytes) => { (window.kept ||= {})[name] = bytes; };
function give(sides) {
  sides.forEach(([side, name]) => takeFile(side, new File([window.kept[name]], name)));
}
const says = words => document.body.innerText.includes(words);

async function exchanges({ verdict, native, file }, page) {
  const { sent, received } = messages.capture(40000, 96), size = sent.length + received.length;
  await page.call(seen.clear);
  await page.drop('out', [file('sent.bin', sent), file('received.bin', received)]);
  verdict(`${(size / 1e6).toFixed(1)} MB, 40,000 exchanges, are dropped and read`,
    size > 16e6 && await until(page, 60, says, '40,000 exchanges'), await page.call(seen.summary));
  const again = await page.call(async () => {
    const kept = [...SIDES.map(side => fields[side])];
    document.getElementById('clear').click();
    window.kept = { sent: kept[0].chunks[0].bytes, received: kept[1].chunks[0].bytes };
  });
  await startWatch(page);
  await page.call(give, [['sent', 'sent'], ['received', 'received']]);
  await until(page, 60, seen.countOf, 'tr.rest');
  const took = await endWatch(page);
  verdict(`the first row is there after ${took.first} ms${took.words}`, took.isSoon, took);
  verdict(`and no task took more than ${took.longest} ms${took.words}`, took.isShort, took);
  await searchAll({ verdict }, page);
  const report = native('web_report', file('sent.bin', sent),
    file('received.bin', received)).split('\n');
  const at = 31234, want = report[3 * at];
  await page.call(words => {
    const field = document.querySelector('input[type=search]');
    field.value = words;
    field.oninput();
  }, '#' + (at + 1));
  const rows = await page.call(seen.rows);
  verdict('a row far down is that of the native report',
    rows.length === 1 && rows[0][0] + ' ' + rows[0][4] === want, [rows, want]);
  return again;
}
// A log of 50 MB, whose first rows are there while the rest is read. What was opened and is
// searched for by then stays.
async function logged({ verdict, file }, page) {
  const front = '2025-11-29 09:00:00,123 DEBUG kmip: ', parts = [];
  for (let size = 0; size < LOG.size; size += parts.at(-1).length) {
    const [request, response] = messages.exchange(parts.length + 1, 96);
    parts.push(`${front}> ${hexOf(request)}\n${front}< ${hexOf(response)}\n`);
  }
  const at = file('large.log', parts.join('')), all = parts.length.toLocaleString('en');
  await page.call(seen.clear);
  await startWatch(page);
  await page.choose('sent-file', at);
  await until(page, 30, seen.countOf, 'tr.exchange');
  await page.call(() => {
    window.early = document.getElementById('summary').innerText;
    const field = document.querySelector('input[type=search]');
    field.value = 'key-2';
    field.oninput();
    document.querySelector('tr.exchange').click();
  });
  await until(page, 120, says, all + ' exchanges');
  const took = await endWatch(page), by = Math.max(stretch.by, slowness());
  verdict(`a log of 50 MB has its first row after ${took.first} ms${took.words}`,
    took.first < LOG.first * by, took);
  verdict(`and no task took more than ${took.longest} ms${took.words}`,
    took.longest < LOG.longest * by, took);
  const early = await page.call(() => window.early), rows = await page.call(seen.rows);
  const field = await page.call(() => document.querySelector('input[type=search]').value);
  verdict('the first rows are there while the rest is read, and all are at last',
    early.includes('the rest is being read') && rows.length === 100, [early, rows.length]);
  verdict('what was searched for and opened meanwhile stays', field === 'key-2'
    && rows[0][2] === 'key-2' && await page.call(seen.countOf, 'tr.opened .message') === 2,
      [field, rows[0]]);
}
async function searchAll({ verdict }, page) {
  await startWatch(page);
  await page.call(() => {
    const field = document.querySelector('input[type=search]');
    field.value = 'key-39999';
    field.oninput();
  });
  const line = await page.call(() => document.querySelector('.found').textContent);
  const rows = await page.call(seen.rows), took = await endWatch(page);
  verdict('a search in 40,000 rows says how far it is', /looked at|found/.test(line), line);
  verdict(`and finds one; no task took more than ${took.longest} ms${took.words}`,
    rows.length === 1 && rows[0][0] === '#39999' && took.isShort, [rows, took]);
}
const wideOf = count => messages.structure(0x420078, Buffer.concat(Array.from({ length: count },
  (_, i) => Buffer.concat([messages.text(0x420094, 'key-' + i),
    messages.bytes(0x420043, Buffer.alloc(64, i))]))));

async function oneMessage({ verdict, file }, page) {
  const bytes = wideOf(170000);
  await page.call(seen.clear);
  await page.drop('sent', [file('one.bin', bytes)]);
  verdict(`one message of ${(bytes.length / 1e6).toFixed(1)} MB is shown, and how far it is listed`,
    await until(page, 60, says, 'key-10'), await page.call(seen.summary));
  await page.call(() => {
    window.kept = { one: fields.sent.chunks[0].bytes };
    document.getElementById('clear').click();
  });
  await startWatch(page);
  await page.call(give, [['sent', 'one']]);
  await until(page, 60, seen.countOf, '.progress');
  const progress = await page.call(seen.text, '.progress');
  const isListed = await until(page, 90, () => !document.querySelector('.progress'));
  const took = await endWatch(page);
  verdict('it is listed in parts, with a line that says how far', isListed
    && /listed \d+ % of the message/.test(progress), progress);
  verdict(`its first row is there after ${took.first} ms${took.words}`, took.isSoon, took);
  verdict(`and no task took more than ${took.longest} ms${took.words}`, took.isShort, took);
  await sameListing({ verdict }, page, bytes);
  await openAll({ verdict }, page);
}
// The parts together are the listing of the whole message.
async function sameListing({ verdict }, page) {
  const isSame = await page.call(() => {
    const { bytes, lines, ends } = document.querySelector('.tree').listing;
    const whole = linesOf(bytes), atOnce = newListing(bytes, bytes.length);
    addLines(atOnce, whole, 0);
    const isSame = whole.length === lines.length && whole.every((line, i) => line === lines[i]);
    return [isSame, atOnce.ends.every((end, i) => end === ends[i]), whole.length, lines.length];
  });
  verdict('the parts are the listing of the whole message', isSame[0] && isSame[1], isSame);
}
async function openAll({ verdict }, page) {
  const label = await page.call(seen.text, '.open-all');
  const before = await page.call(seen.countOf, '.row');
  await startWatch(page);
  await page.call(seen.click, '.open-all');
  await until(page, 300, () => begun.size === 0);
  const after = await page.call(seen.countOf, '.row'), took = await endWatch(page);
  verdict('"open" says how many it opens at a time, and opens them', label === 'Open 3,000 more'
    && after >= before + 3000 && after < before + 4000, [label, before, after]);
  verdict(`no task of it took more than ${took.longest} ms${took.words}`, took.isShort, took);
}
// Messages that are nested, cut off and faulty, in parts of any size, against the whole listing.
async function parts({ verdict }, page) {
  const { structure, text } = messages;
  const deep = [1, 2, 3].reduce(
    inner => structure(0x420091, inner, text(0x420094, 'x'), structure(0x420091), inner),
    structure(0x420091, text(0x420094, 'y')));
  const faulty = Object.entries(messages.faults).map(([name, [bytes]]) => [name, bytes]);
  const lists = { deep, cut: deep.subarray(0, -40), 'all types': messages.allTypes,
    attributes: messages.attributes, ...Object.fromEntries(faulty) };
  const listed = (bytes, room) => {
    const listing = { ...newListing(bytes, faultOf(bytes).at), isLong: true, room, part: room };
    for (let count = 0; count < 10000 && listNext(listing); count++);
    return [listing.lines, linesOf(bytes)];
  };
  const wrong = [];
  for (const [name, bytes] of Object.entries(lists)) {
    for (const room of [16, 40, 100]) {
      const [got, want] = await page.call(listed, bytes, room);
      if (String(got) !== String(want)) wrong.push([name, room, got, want]);
    }
  }
  verdict('a listing in parts is the whole one, wherever they end', !wrong.length, wrong[0]);
}
async function longValue({ verdict }, page) {
  await page.call(() => {
    const value = new Uint8Array(16e6).fill(0x5A), head = new Uint8Array(16);
    const view = new DataView(head.buffer);
    view.setUint32(0, 0x42007801);
    view.setUint32(4, value.length + 8);
    view.setUint32(8, 0x42004308);
    view.setUint32(12, value.length);
    const all = new Uint8Array(16 + value.length);
    all.set(head);
    all.set(value, 16);
    window.kept = { long: all };
    document.getElementById('clear').click();
  });
  await page.call(give, [['sent', 'long']]);
  await until(page, 60, seen.countOf, '.secret');
  await startWatch(page);
  await page.call(seen.click, '.secret');
  await until(page, 60, seen.countOf, '.tree .all');
  await page.call(seen.click, '.tree .all');
  const line = await page.call(seen.text, '.tree .all');
  const isOver = await until(page, 120, () => !document.querySelector('.tree .all'));
  const took = await endWatch(page);
  const count = await page.call(() => document.querySelector('.tree .text').textContent.length);
  verdict('32 million characters are drawn in parts, with how far it is', isOver
    && /^stop: \d+ % is shown$/.test(line) && count === 32e6, [line, count]);
  verdict(`and no task took more than ${took.longest} ms${took.words}`, took.isShort, took);
}
async function large(harness, page) {
  await parts(harness, page);
  await exchanges(harness, page);
  await logged(harness, page);
  await oneMessage(harness, page);
  await longValue(harness, page);
  await page.call(seen.clear);
}
module.exports = { large };
