'use strict';
// What a row says: of the response its own status and reason, apart from that what the matched
// reading makes of the exchange; the object; the names of buttons; and the tree by keyboard.
const fs = require('fs'), path = require('path');
const messages = require('./messages.js'), { hexOf } = require('./forms.js');
const { until } = require('./driver.js'), { seen } = require('./harness.js');

const { request, answered, failed, named, bytes, structure, enumeration, text } = messages;
const CREATE_PAIR = 2, REGISTER = 3, REKEY = 4, GET = 10, ENCRYPT = 0x1F;
const data = bytes(0x4200C2, Buffer.from('hello'));
const pair = [text(0x420066, '2'), text(0x42006F, '1')];
const template = structure(0x420091);
// The same message by KMIP 1.2.
function byMinor2(message) {
  const made = Buffer.from(message), at = made.indexOf(Buffer.from('42006B0200000004', 'hex'));
  made[at + 11] = 2;
  return made;
}
// Requests that no typed call makes, and what the server says of them.
const ordinary = {
  Encrypt: [request(ENCRYPT, named('k'), data), answered(ENCRYPT, named('k'), data)],
  ReKey: [request(REKEY, named('k')), answered(REKEY, named('k2'))],
  Register: [request(REGISTER, enumeration(0x420057, 8), template),
    answered(REGISTER, named('o'))].map(byMinor2),
};
const look = () => [...document.querySelectorAll('tr.exchange')].map(row => {
  const [result, verdict] = ['.result span', '.matched span'].map(name => row.querySelector(name));
  const { color, fontWeight } = getComputedStyle(verdict);
  const bad = getComputedStyle(document.documentElement).getPropertyValue('--bad').trim();
  const probe = document.body.appendChild(document.createElement('i'));
  probe.style.color = bad;
  const isRed = getComputedStyle(probe).color === color;
  probe.remove();
  return [result.textContent, result.className, verdict.textContent, isRed, fontWeight];
});
async function ordinaryRows({ verdict }, page) {
  for (const [name, [asked, told]] of Object.entries(ordinary)) {
    await page.call(seen.show, asked, told);
    const [row] = await page.call(seen.rows), [looks] = await page.call(look);
    verdict(`an ordinary ${name} reads as what the server said, and its verdict is plain`,
      row[1] === name && String(looks) === 'Success,good,unread request,false,400', [row, looks]);
  }
  await page.call(seen.show, ordinary.Encrypt[0], failed(ENCRYPT, 10, 'no'));
  const [row] = await page.call(seen.rows), [looks] = await page.call(look);
  verdict('one that failed has its status and reason', row[3]
    === 'OperationFailed: CryptographicFailure' && looks[1] === 'bad', [row, looks]);
}
async function resultsOfRows({ verdict }, page) {
  const wrong = Buffer.from(answered(GET, enumeration(0x420057, 2), named('a')));
  wrong[wrong.length - 13] = 0xFF; // the length of its last item
  await page.call(seen.show, request(GET, named('a')), wrong);
  const [row] = await page.call(seen.rows);
  verdict('a response whose contents are damaged is no success',
    row[3] === 'not well formed' && row[4] === 'malformed response', row);
  const waits = messages.response(enumeration(0x42005C, GET), enumeration(0x42007F, 2));
  await page.call(seen.show, request(GET, named('a')), waits);
  const [, ...rest] = (await page.call(look))[0], [pending] = await page.call(seen.rows);
  verdict('one that is not done yet is neither good nor bad', pending[3] === 'OperationPending'
    && rest[0] === '', [pending, rest]);
}
async function objects({ verdict }, page) {
  await page.call(seen.show, request(CREATE_PAIR, template), answered(CREATE_PAIR, ...pair));
  const [made] = await page.call(seen.rows);
  verdict('the object of CreateKeyPair is its two identifiers',
    made[2] === 'private 2, public 1', made);
  const script = `create-rsa 2048 issuing issuing-pub ${hexOf(answered(CREATE_PAIR, ...pair))}\n`
    + `create-rsa 2048 issuing issuing-pub ${hexOf(failed(CREATE_PAIR, 9, 'no'))}\n`
    + `rng 16 ${hexOf(failed(0x25, 9, 'no'))}\n`;
  await page.call(seen.clear);
  await page.call(seen.give, 'sent', script);
  const rows = await page.call(seen.rows);
  verdict('also in a record, which has the words of a call that made none', String(rows
    .map(row => row[2])) === 'private 2, public 1,issuing, issuing-pub,', rows);
}
// The words of the one table of outcomes, docs/PROGRAM.md, and those of the page.
async function vocabulary({ verdict }, page) {
  const at = path.join(__dirname, '../../../docs/PROGRAM.md');
  const [, table] = fs.readFileSync(at, 'utf8').split('| outcome | the first of these that fits |');
  const words = table.split('\n\n')[0].split('\n').slice(2)
    .flatMap(row => [...row.split('|')[1].matchAll(/`([^`]+)`/g)].map(found => found[1]));
  const none = await page.call(all => all.filter(one => !meaningOf(one)), words);
  verdict('each outcome of a report has its meaning in the page', words.length >= 12
    && !none.length, [words.length, none]);
  await page.call(seen.show, ...ordinary.Encrypt);
  await page.call(seen.rows);
  const said = await page.call(seen.text, 'tr.opened .meaning');
  verdict('an opened row says what its verdict means',
    said?.startsWith('Matched reading: unread request: ') && said.includes('no fault'), said);
}
async function names({ verdict }, page) {
  const { sent, received } = messages.capture(2, 32);
  await page.call(seen.show, sent, received);
  await page.call(seen.rows);
  const got = await page.call(() => {
    for (const row of document.querySelectorAll('tr.exchange')) row.click();
    return [...document.querySelectorAll('tr.opened .bar button')]
      .map(made => [made.textContent, made.getAttribute('aria-label')]);
  });
  const names = got.map(([, name]) => name);
  verdict('each button of a message has a name of its own, which begins with what it shows',
    got.length === 32 && new Set(names).size === 32 && names[0] === 'Copy skeleton, sent #1'
    && got.every(([shown, name]) => name.startsWith(shown)), got);
}
// From the row by Tab into the tree, and by the arrows to its leaves.
async function keyboard({ verdict }, page) {
  await page.call(seen.show, null, messages.exchange(1, 32)[1]);
  await page.call(seen.rows);
  await page.call(seen.click, '.show-bytes');
  const focused = () => [document.activeElement.className || document.activeElement.localName,
    document.activeElement.querySelector('.name')?.textContent,
    [...document.querySelectorAll('.digits mark')].map(mark => mark.textContent).join(' ')];
  await page.call(seen.focus, '.show-bytes');
  await page.press('Tab');
  const first = await page.call(focused);
  for (let i = 0; i < 3; i++) await page.press('ArrowDown');
  const leaf = await page.call(focused);
  verdict('Tab goes into the tree, and the arrows to a leaf, whose bytes are marked',
    first[1] === 'Response Message' && String(leaf)
    === 'row,Protocol Version Major,42 00 6A 02 00 00 00 04 00 00 00 01 00 00 00 00',
    [first, leaf]);
  await page.press('End');
  const last = await page.call(focused);
  verdict('End goes to the last one', last[1] === 'Cryptographic Length', last);
  await page.press('ArrowLeft');
  const owner = await page.call(focused);
  await page.press('ArrowLeft');
  const isShut = await page.call(() => !document.activeElement.parentNode.open);
  await page.press('ArrowRight');
  const isOpen = await page.call(() => document.activeElement.parentNode.open);
  verdict('Left goes to the structure around it and closes it, Right opens it',
    owner[1] === 'Key Block' && isShut && isOpen, [owner, isShut, isOpen]);
  const stops = await page.call(() => document.querySelectorAll('.tree [tabindex="0"]').length);
  verdict('the tree is one stop of Tab', stops === 1, stops);
}
async function nothing({ verdict, file }, page) {
  const files = { 'an empty file': ['', 'The file is empty.'],
    'a file of white space': [' \r\n\n', 'nothing but white space'] };
  for (const [name, [contents, words]] of Object.entries(files)) {
    await page.call(seen.clear);
    await page.choose('sent-file', file('nothing', contents));
    const isSaid = await until(page, 10, has => document.getElementById('summary').innerText
      .includes(has), words);
    verdict(name + ' is said to be one', isSaid, await page.call(seen.summary));
  }
}
async function rows(harness, page) {
  for (const run of [ordinaryRows, resultsOfRows, objects, vocabulary, names, keyboard,
    nothing]) await run(harness, page);
  await page.call(seen.clear);
}
module.exports = { rows };
