'use strict';
// What the checks share: verdicts, files, the native program, and functions that run in the page.
const { execFileSync } = require('child_process'), fs = require('fs'), os = require('os');
const path = require('path');
const { until } = require('./driver.js');

function newHarness(browser, program, folder) {
  const room = fs.mkdtempSync(path.join(os.tmpdir(), 'kmip-page-'));
  const counts = { passed: 0, failed: 0 };
  return {
    browser, program, folder, room, counts,
    verdict(what, isGood, why = '') {
      counts[isGood ? 'passed' : 'failed']++;
      const reason = typeof why === 'string' ? why : JSON.stringify(why);
      console.log((isGood ? 'passed ' : 'FAILED ') + browser + ': ' + what
        + (isGood ? '' : '  ' + String(reason).slice(0, 600)));
    },
    file(name, contents) {
      const made = path.join(room, name);
      fs.writeFileSync(made, contents);
      return made;
    },
    native: (name, ...words) => execFileSync(path.join(folder, 'native'), [name, ...words],
      { maxBuffer: 1 << 29 }).toString('utf8'),
    launch: () => require('./' + browser + '.js').launch(program),
    clean: () => fs.rmSync(room, { recursive: true, force: true }),
  };
}

// These run in the page.
const seen = {
  isReady: () => typeof page === 'object' && page.isStarted === true,
  state: () => document.getElementById('state').textContent,
  summary: () => document.getElementById('summary').innerText,
  left: () => document.getElementById('left').innerText,
  shown: () => document.getElementById('out').innerText,
  clear() { document.getElementById('clear').click(); },
  give: (side, text) => takeText(side, text, false),
  // The rows, once all that are asked for are drawn.
  async rows() {
    while (begun.has(table)) await pause();
    const rows = [...document.querySelectorAll('tr.exchange')];
    return rows.map(row => [...row.cells].map(cell => cell.textContent));
  },
  countOf: selector => document.querySelectorAll(selector).length,
  click(selector) { document.querySelector(selector).click(); },
  focus(selector) { document.querySelector(selector).focus(); },
  text: selector => document.querySelector(selector)?.textContent,
  chunks: () => SIDES.flatMap(chunksAt).map(({ side, bytes }) => side + ' '
    + Array.from(bytes, x => x.toString(16).padStart(2, '0')).join('')),
  show(sent, received) {
    document.getElementById('clear').click();
    [sent, received].forEach((bytes, i) => {
      if (bytes) put(SIDES[i], ask(SIDES[i]), atOnce(readOrSay(readGiven(bytes))), '');
    });
  },
};
module.exports = { newHarness, seen };
