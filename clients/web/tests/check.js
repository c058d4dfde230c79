'use strict';
// node check.js BROWSER PROGRAM FOLDER IS_PROVED [SHOTS]: the page of FOLDER in a browser, held to
// the native program FOLDER/native.
const path = require('path');
const { until } = require('./driver.js'), { newHarness, seen } = require('./harness.js');
const { exports: exported } = require('./exports.js'), { inputs } = require('./inputs.js');
const { given } = require('./given.js'), { reading } = require('./reading.js');
const { rows } = require('./rows.js');
const { large } = require('./large.js'), { policy } = require('./policy.js');
const { memory } = require('./memory.js'), { screens } = require('./screens.js');

async function onePage(harness, isProved, shots) {
  const { verdict, folder } = harness, page = await harness.launch();
  await page.open(path.join(folder, 'kmip.html'));
  await until(page, 30, seen.isReady);
  const state = await page.call(seen.state);
  verdict('the page runs its module', state.startsWith('Computed here'), state);
  verdict('it calls its code proved only where it was',
    state.includes('by proved code') === isProved, state);
  page.requests.length = 0;
  page.said.length = 0;
  for (const run of [exported, inputs, given, reading, rows, large]) await run(harness, page);
  // Firefox draws its own fields with fonts of data:, and a file is saved from blob:
  const requests = page.requests.filter(address => !/^(?:data|blob):/.test(address));
  verdict('no request was made', requests.length === 0, requests);
  verdict('nothing failed in the script', page.said.length === 0, page.said);
  if (shots) await screens(harness, page, shots);
  await page.close();
}
async function main() {
  const [browser, program, folder, proved, shots] = process.argv.slice(2);
  const harness = newHarness(browser, program, folder), { verdict, counts } = harness;
  try {
    await onePage(harness, proved === 'proved', shots);
    await policy(harness);
    await memory(harness);
  } catch (error) {
    verdict('the checks ran to their end', false, error.stack);
  }
  harness.clean();
  console.log(`${browser}: ${counts.passed} passed, ${counts.failed} failed`);
  process.exit(counts.failed ? 1 : 0);
}
main();
