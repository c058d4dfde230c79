'use strict';
// Pictures of the page, for docs/PAGE.md.
const path = require('path');
const messages = require('./messages.js'), { hexOf } = require('./forms.js');
const { until } = require('./driver.js'), { seen } = require('./harness.js');

const { sent, received } = messages.capture(40, 32);
const toTop = () => document.querySelector('main').scrollIntoView();
const toResult = () => document.getElementById('summary').scrollIntoView();

async function screens({ file }, page, shots) {
  const shot = name => page.shot(path.join(shots, name));
  await page.view(1100, 540, false);
  await page.call(seen.clear);
  await page.drop('out', [file('sent.bin', sent), file('received.bin', received)]);
  await until(page, 20, () => document.querySelectorAll('tr.exchange').length === 40);
  await page.call(toTop);
  await shot('page-exchanges.png');
  await opened(page, shot);
  await faulty(page, shot);
  await small(page, shot);
  await page.view(1280, 1000, false);
}
// A message with its bytes beside it, those of one item marked.
async function opened(page, shot) {
  await page.view(1100, 800, false);
  await page.call(() => {
    document.querySelector('tr.exchange').click();
    const message = document.querySelectorAll('.message')[1];
    message.querySelector('.show-bytes').click();
    const row = [...message.querySelectorAll('.row')]
      .find(item => item.querySelector('.name').textContent === 'Unique Identifier');
    row.dispatchEvent(new MouseEvent('click', { bubbles: true }));
    message.scrollIntoView();
  });
  await shot('page-exchange.png');
}
// A damaged log: what was left out, and a message that is cut off.
async function faulty(page, shot) {
  const pairs = Array.from({ length: 5 }, (_, i) => messages.exchange(i + 1, 32).map(hexOf));
  const lines = pairs.flatMap(([a, b], i) => [`09:00:0${i} > ${a}`, `09:00:0${i} < ${b}`]);
  lines[2] = lines[2].slice(0, -1);
  lines[6] = lines[6].slice(0, -32);
  await page.view(1100, 820, true);
  await page.call(seen.clear);
  await page.call(seen.give, 'sent', lines.join('\n'));
  await page.call(seen.rows);
  await page.call(() => {
    document.querySelectorAll('tr.exchange')[3].click();
    document.querySelector('main').scrollIntoView();
  });
  await shot('page-fault.png');
}
async function small(page, shot) {
  await page.view(390, 640, true);
  await page.call(seen.show, sent, received);
  await page.call(seen.rows);
  await page.call(toResult);
  await shot('page-small.png');
}
module.exports = { screens };
