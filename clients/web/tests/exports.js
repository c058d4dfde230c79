'use strict';
// Each export on the same bytes, in the page and as a program of this machine; and the listing and
// the offsets in the JSON against a reader that was written for this.
const messages = require('./messages.js');
const { until } = require('./driver.js'), { seen } = require('./harness.js');

const [request, response] = messages.exchange(1, 16);
const { sent, received } = messages.capture(40, 32);
const faulty = Object.fromEntries(Object.entries(messages.faults)
  .map(([name, [bytes]]) => [name, bytes]));
const lists = { 'all types': messages.allTypes, 'a request': request, 'a response': response,
  'attributes': messages.attributes, 'a failure': messages.exchange(3, 16)[1], 'a stream': sent,
  'nothing': Buffer.alloc(0), 'one byte': Buffer.from([0x42]), ...faulty };

const textOrCode = (name, bytes) => textFrom(name, [bytes]) ?? 'code -3';
function framed(bytes) {
  page.wasm.web_reset();
  return String(page.wasm.web_frame(...handIn(bytes)));
}
async function asNative({ verdict, native, file }, page) {
  const wrong = [];
  for (const [name, bytes] of Object.entries(lists)) {
    const at = file('bytes', bytes);
    for (const exported of ['web_skeleton', 'web_listing', 'web_decode', 'web_fault']) {
      const got = await page.call(textOrCode, exported, bytes);
      if (native(exported, at) !== got) wrong.push(exported + ' of ' + name);
    }
    const size = await page.call(framed, bytes);
    if (native('web_frame', at).trim() !== size) wrong.push('frame of ' + name);
  }
  const count = Object.keys(lists).length;
  verdict(`${count} inputs give what the native program gives`, !wrong.length, wrong);
}
async function textsAsNative({ verdict, native, file }, page) {
  const hex = sent.toString('hex');
  const texts = { hex, base64: sent.toString('base64'), log: `> ${hex}\n< ${hex}\n`,
    none: 'no hex!' };
  const inside = (text, side) => {
    const made = written('web_bytes', [ENCODER.encode(text)], [side]);
    return made ? DECODER.decode(made) : 'code -2';
  };
  const wrong = [];
  for (const [name, text] of Object.entries(texts)) {
    for (const side of [0, 1, 2]) {
      const here = native('web_bytes', file('text', text), String(side));
      if (here !== await page.call(inside, text, side)) wrong.push(name + ' ' + side);
    }
  }
  verdict('texts give the bytes that the native program gives', !wrong.length, wrong);
}
// A row is drawn for each entry of the report on the whole streams.
async function reports({ verdict, native, file }, page) {
  const report = native('web_report', file('sent', sent), file('received', received)).split('\n');
  await page.call(seen.show, sent, received);
  const rows = await page.call(seen.rows);
  const want = report.slice(0, 120).filter((_, i) => i % 3 === 0);
  verdict('the rows are the entries of the native report', report.length === 123
    && rows.length === 40 && rows.every((row, i) => row[0] + ' ' + row[4] === want[i]),
      rows.slice(0, 3));
  await page.call(seen.click, 'tr.exchange');
  const skeletons = await page.call(() => [...document.querySelectorAll('.skeleton')]
    .map(skeleton => skeleton.textContent));
  verdict('and the skeletons of a row are its lines', skeletons[0] === report[1].slice(3)
    && skeletons[1] === report[2].slice(3), [skeletons, report.slice(0, 3)]);
}
const listing = bytes => textFrom('web_listing', [bytes]).split('\n').slice(0, -1);
// A line without the name of its tag and of its number.
function plain(line) {
  const [at, tag, , kind, value] = line.split('\t');
  if (!tag) return line;
  return [at, tag, kind, /^(?:Enumeration|Integer)$/.test(kind) ? value.split(' ')[0] : value]
    .join('\t');
}
async function listings({ verdict }, page) {
  const wrong = [];
  for (const name of ['all types', 'a request', 'a response', 'attributes', 'a stream']) {
    const lines = (await page.call(listing, lists[name])).map(plain);
    if (String(lines) !== String(messages.listed(lists[name]))) wrong.push(name);
  }
  verdict('the listings are what another reader finds: places, tags, types and values',
    !wrong.length, wrong);
}
// The values by name: under Attribute Value by the Attribute Name before it in the structure.
async function names({ verdict }, page) {
  const lines = (await page.call(listing, messages.attributes)).map(line => line.split('\t'));
  const got = lines.filter(line => /^(?:Enumeration|Integer)$/.test(line[3])).map(line => line[4]);
  verdict('enumerations and masks have their names, also under Attribute Value',
    String(got) === String(messages.attributeValues), got);
}
function offsetsOf(bytes) {
  const offsets = [], walk = item => {
    offsets.push(item.offset);
    if (Array.isArray(item.value)) item.value.forEach(walk);
  };
  walk(JSON.parse(textFrom('web_decode', [bytes])));
  return offsets.join(' ');
}
async function offsets({ verdict }, page) {
  const wrong = [];
  for (const name of ['all types', 'a request', 'a response']) {
    const lines = messages.listed(lists[name]).filter(line => line !== ']');
    const want = lines.map(line => line.split('\t')[0]);
    if (await page.call(offsetsOf, lists[name]) !== want.join(' ')) wrong.push(name);
  }
  verdict('each object of the JSON has the offset that another reader finds', !wrong.length, wrong);
}
async function faults({ verdict }, page) {
  for (const [name, [bytes, at, words]] of Object.entries(messages.faults)) {
    const said = await page.call(input => textFrom('web_fault', [input]), bytes);
    verdict('fault: ' + name, said.startsWith(at + ' ') && said.includes(words), said);
  }
  await page.call(seen.show, messages.faults['a text that is no UTF-8'][0], null);
  await until(page, 5, seen.countOf, '.fault');
  const shown = await page.call(seen.shown);
  verdict('a fault is shown, with its place',
    shown.includes('No item at 0: the Text String is no UTF-8'), shown);
  const torn = messages.request(10, messages.named('before the end')).subarray(0, -8);
  await page.call(seen.show, torn, null);
  await until(page, 5, seen.countOf, '.fault');
  const part = await page.call(seen.shown);
  verdict('the good items before a fault are shown', part.includes('Operation')
    && part.includes('No item at') && part.includes('0xA Get'), part);
}
async function exports(harness, page) {
  for (const run of [asNative, textsAsNative, reports, listings, names, offsets, faults]) {
    await run(harness, page);
  }
  await page.call(seen.clear);
}
module.exports = { exports };
