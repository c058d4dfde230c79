'use strict';
// Both pages where the browser refuses memory, and where it does not know the module's kind.
const { execFileSync } = require('child_process'), fs = require('fs'), path = require('path');
const messages = require('./messages.js');
const { until } = require('./driver.js'), { seen } = require('./harness.js');

// A number of a module, of seven bits a byte, and where it ends.
function numberAt(module, at) {
  let value = 0, next = at;
  for (let factor = 1; ; factor *= 128) {
    const byte = module[next++];
    value += (byte & 127) * factor;
    if (byte < 128) return [value, next];
  }
}
function bytesOf(number) {
  const made = [];
  for (let rest = number; ; rest >>= 7) {
    if (rest < 128) return [...made, rest];
    made.push(rest & 127 | 128);
  }
}
// The module with other limits of its memory: one that may not grow past 4 MiB, or of a kind that
// no browser knows. Section 5 has them: how many, flags, the least and the most.
function limited(module, flagsOf) {
  for (let at = 8; at < module.length;) {
    const [size, from] = numberAt(module, at + 1);
    if (module[at] === 5) {
      const [least] = numberAt(module, from + 2);
      const limits = [1, flagsOf(module[from + 1]), ...bytesOf(least), 64];
      return Buffer.concat([module.subarray(0, at), Buffer.from([5, limits.length, ...limits]),
        module.subarray(from + size)]);
    }
    at = from + size;
  }
  throw new Error('the module has no memory');
}
const isCapped = flags => flags | 1, isUnknown = () => 0x40;

async function openLimited({ folder, room, file }, page, name, flagsOf) {
  const module = limited(fs.readFileSync(path.join(folder, name + '.wasm')), flagsOf);
  const made = path.join(room, name + '-limited.html');
  const script = path.join(__dirname, '../page.py');
  execFileSync('python3', [script, file(name + '-limited.wasm', module), made, 'Computed here.']);
  await page.open(made);
  await until(page, 20, seen.isReady);
}
const { sent, received } = messages.capture(40, 32);
const says = words => document.body.innerText.includes(words);
// A message that is larger than the memory may grow, and one whose listing is.
const huge = messages.structure(0x420078, messages.bytes(0x420043, Buffer.alloc(6 << 20, 7)));
const wide = messages.structure(0x420078, messages.bytes(0x420043, Buffer.alloc(1 << 20, 7)));

async function capped(harness, page, name) {
  const { verdict } = harness;
  await openLimited(harness, page, name, isCapped);
  for (const [what, bytes] of Object.entries({ 'in which it is handed in': huge,
    'of its listing': wide })) {
    await page.call(seen.show, bytes, null);
    verdict(`${name}: memory that is refused is said: ${what}`,
      await until(page, 30, says, 'refused the memory'), await page.call(seen.shown));
  }
  await page.call(seen.show, sent, received);
  const rows = await page.call(seen.rows);
  verdict(name + ': and the page goes on', rows.length === 40, rows.length);
  const place = await page.call(() => {
    page.wasm.web_reset();
    let count = 0, last = 1n;
    for (; last !== 0n && count < 200; count++) last = page.wasm.web_alloc(65536n);
    return [count, page.wasm.memory.buffer.byteLength];
  });
  verdict(name + ': no block is given past the end of its memory', place[0] < 64
    && place[1] <= 4 << 20,
    place);
}
async function memory(harness) {
  const { verdict, folder, browser } = harness, page = await harness.launch();
  await capped(harness, page, 'kmip');
  await openLimited(harness, page, 'kmip', isUnknown);
  const said = await page.call(seen.state);
  verdict('a browser that does not know the kind of memory says so',
    said.includes('does not run the module') && said.includes('kmip32.html'), said);
  if (fs.existsSync(path.join(folder, 'kmip32.html'))) {
    await page.open(path.join(folder, 'kmip32.html'));
    await until(page, 20, seen.isReady);
    await page.call(seen.show, sent, received);
    const rows = await page.call(seen.rows);
    verdict('kmip32.html runs too', rows.length === 40 && rows[39][4] === 'answered Get', rows[39]);
    await capped(harness, page, 'kmip32');
  } else {
    console.log('skipped ' + browser
      + ': there is no kmip32.html (Debian: apt-get install binaryen)');
  }
  await page.close();
}
module.exports = { memory };
