'use strict';
// What stands in the fields is what is shown: pastes, files, drops, texts that are dropped, and
// loads that end in another order than they were asked for.
const fs = require('fs');
const messages = require('./messages.js'), { hexOf, xxd } = require('./forms.js');
const { until } = require('./driver.js'), { seen } = require('./harness.js');

const { sent, received } = messages.capture(40, 32), [request, response] = messages.exchange(1, 32);
const log = `> ${hexOf(request)}\n< ${hexOf(response)}\n`;
const hasRows = count => document.querySelectorAll('tr.exchange').length === count;
const says = words => document.getElementById('summary').innerText.includes(words);
const values = () => SIDES.map(side => document.getElementById(side).value);
const sizes = () => SIDES.map(side => ofSide(SIDES.flatMap(chunksAt), side)
  .reduce((sum, { bytes }) => sum + bytes.length, 0)).join();
const hasSizes = want => SIDES.map(side => ofSide(SIDES.flatMap(chunksAt), side)
  .reduce((sum, { bytes }) => sum + bytes.length, 0)).join() === want;
const want = (a, b) => [a, b].map(bytes => (bytes ? bytes.length : 0)).join();

async function byHand({ verdict, file }, page) {
  await page.call(seen.clear);
  await page.paste('sent', hexOf(sent));
  verdict('a paste is shown', await until(page, 10, hasSizes, want(sent)), await page.call(sizes));
  await page.drop('received', [file('received.bin', received)]);
  verdict('a dropped file is shown beside it', await until(page, 10, hasSizes,
    want(sent, received)));
  await page.call(seen.clear);
  await page.choose('sent-file', file('sent.bin', sent));
  verdict('a chosen file is shown', await until(page, 10, hasSizes, want(sent)));
  for (const order of [['sent.bin', 'received.bin'], ['received.bin', 'sent.bin']]) {
    await page.call(seen.clear);
    const bytes = { 'sent.bin': sent, 'received.bin': received };
    await page.drop('out', order.map(name => file(name, bytes[name])));
    const isThere = await until(page, 10, hasSizes, want(sent, received));
    verdict('two files at once are both sides: ' + order, isThere, await page.call(sizes));
  }
  await page.drop('out', ['a', 'b', 'c'].map(name => file(name, sent)));
  verdict('three files are refused, and it is said',
    await until(page, 10, says, '3 files were dropped'), await page.call(seen.summary));
}
// A text as PowerShell writes it.
async function wide({ verdict, file }, page) {
  await page.call(seen.clear);
  await page.drop('sent', [file('wide.log', Buffer.from('\ufeff' + log, 'utf16le'))]);
  verdict('a text in UTF-16 is read', await until(page, 10, hasSizes, want(request, response)),
    await page.call(seen.summary));
}
async function droppedText({ verdict }, page) {
  await page.call(seen.clear);
  await page.dropText('received', xxd(received));
  const isThere = await until(page, 10, hasSizes, want(null, received));
  verdict('a text that is dropped is read', isThere,
    [await page.call(sizes), await page.call(values)]);
  const [, value] = await page.call(values);
  verdict('and stands in its field', value === xxd(received), value.slice(0, 80));
  await page.call(seen.clear);
  await page.dropText('out', log);
  verdict('so is one that is dropped beside the fields',
    await until(page, 10, hasSizes, want(request, response)), await page.call(sizes));
}
async function fieldsAlone({ verdict }, page) {
  await page.call(seen.clear);
  await page.call(seen.give, 'received', log);
  await page.call(seen.give, 'sent', hexOf(sent));
  verdict('a side that came from a log is cleared when the other is filled',
    await page.call(sizes) === want(sent) && (await page.call(values))[1] === '',
    [await page.call(sizes), await page.call(values)]);
  await page.call(seen.give, 'sent', hexOf(sent));
  await page.call(seen.give, 'received', log);
  const [first] = await page.call(values);
  verdict('a log clears the other field',
    first === '' && await page.call(sizes) === want(request, response), await page.call(sizes));
  await page.call(seen.give, 'received', '');
  verdict('an emptied field shows nothing', await page.call(sizes) === '0,0');
  await page.call(seen.give, 'received', log);
  await page.call(seen.give, 'sent', 'no hex!');
  verdict('a text of no form is said, and takes nothing away',
    await page.call(says, 'Sent: This is no hex, no base64')
    && await page.call(sizes) === want(request, response), await page.call(seen.summary));
  await page.call(seen.clear);
  await page.call(seen.give, 'sent', '> ' + hexOf(request));
  await page.call(seen.give, 'received', '< ' + hexOf(response));
  verdict('two logs, of one side each, are both shown',
    await page.call(sizes) === want(request, response), await page.call(sizes));
}

// Files whose contents come when the check lets them.
function holdFiles() {
  window.held = [];
  window.heldFile = (name, bytes) => ({ name, size: bytes.length,
    arrayBuffer: () => new Promise(ok => window.held.push(() => ok(bytes.slice().buffer))) });
}
async function slowLoads({ verdict }, page) {
  await page.call(holdFiles);
  const load = (side, name, bytes) => page.call((at, as, contents) => {
    takeFile(at, window.heldFile(as, contents));
  }, side, name, bytes);
  const finish = order => page.call(async list => {
    await pause();
    for (const index of list) {
      window.held[index]();
      await pause();
      await pause();
    }
    window.held = [];
  }, order);
  await page.call(seen.clear);
  await load('sent', 'first', request);
  await load('sent', 'last', sent);
  await finish([1, 0]);
  verdict('of two loads of a field the last one stays', await page.call(sizes) === want(sent),
    await page.call(sizes));
  await page.call(seen.clear);
  await load('sent', 'log', Buffer.from(log));
  await load('received', 'last', received);
  await finish([1, 0]);
  verdict('a log that was asked for first does not take what was asked last',
    await page.call(sizes) === want(null, received), await page.call(sizes));
  await page.call(seen.clear);
  await load('sent', 'cleared', sent);
  await page.call(seen.clear);
  await finish([0]);
  verdict('a load does not come back after Clear', await page.call(sizes) === '0,0',
    await page.call(sizes));
}
async function unreadable({ verdict, file }, page) {
  const name = file('gone.bin', sent);
  await page.call(seen.clear);
  await page.call(() => {
    const chooser = document.createElement('input');
    chooser.type = 'file';
    chooser.id = 'kept';
    document.body.append(chooser);
  });
  await page.choose('kept', name);
  fs.rmSync(name);
  await page.call(() => {
    const chooser = document.getElementById('kept');
    takeFile('sent', chooser.files[0]);
    chooser.remove();
  });
  verdict('a file that cannot be read is said',
    await until(page, 10, says, 'could not read gone.bin'), await page.call(seen.summary));
}
async function given(harness, page) {
  for (const run of [byHand, wide, droppedText, fieldsAlone, slowLoads, unreadable]) {
    await run(harness, page);
  }
  await page.call(seen.clear);
}
module.exports = { given };
