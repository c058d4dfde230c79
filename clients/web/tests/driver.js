'use strict';
// What the drivers of both browsers share: functions that run in the page, and waiting.
const fs = require('fs'), os = require('os'), path = require('path');

// Runs in the page: the arguments come as JSON, bytes among them as { base64 }.
function invoke(run, words) {
  const isBytes = word => word && typeof word === 'object' && 'base64' in word;
  const bytesOf = ({ base64 }) => Uint8Array.from(atob(base64), char => char.charCodeAt(0));
  return run(...words.map(word => (isBytes(word) ? bytesOf(word) : word)));
}
const asJson = word => (Buffer.isBuffer(word) ? { base64: word.toString('base64') } : word);
// The text of a function, also of one that is a member: `name() { .. }`.
function textOf(run) {
  const text = String(run), member = new RegExp('^(?:async )?' + run.name + '\\(');
  return run.name && member.test(text) ? '({ ' + text + ' }).' + run.name : text;
}
const source = (run, words) =>
  `(${invoke})(${textOf(run)}, ${JSON.stringify(words.map(asJson))})`;

const sleep = milliseconds => new Promise(ok => setTimeout(ok, milliseconds));
// Seconds count so many times, so that a busy machine fails nothing, as in tools/live/harness.sh.
const SLACK = 10;
// Whether what a function of the page returns becomes true in so many seconds.
async function until(page, seconds, run, ...words) {
  for (const end = Date.now() + 1000 * SLACK * seconds; Date.now() < end; await sleep(50)) {
    if (await page.call(run, ...words)) return true;
  }
  return false;
}
const newProfile = () => fs.mkdtempSync(path.join(os.tmpdir(), 'kmip-page-'));

// Ends a browser: it is asked to, and then ended by its process.
async function end(child, profile, ask) {
  const over = new Promise(ok => child.once('exit', ok));
  await Promise.race([ask().catch(() => 0), sleep(5000)]);
  if (child.exitCode === null) child.kill();
  await Promise.race([over, sleep(5000)]);
  // (its other processes may write there for some seconds more)
  fs.rmSync(profile, { recursive: true, force: true, maxRetries: 10, retryDelay: 200 });
}

// Commands that are numbered, and their answers, which come in any order.
function commands(transmit) {
  const waiting = new Map();
  let next = 1;
  return {
    send: (method, params = {}, more = {}) => new Promise((ok, no) => {
      const id = next++;
      waiting.set(id, { ok, no, method });
      transmit(JSON.stringify({ id, method, params, ...more }));
    }),
    answer(id, isGood, result) {
      const { ok, no, method } = waiting.get(id);
      waiting.delete(id);
      if (isGood) ok(result);
      else no(new Error(method + ': ' + result));
    },
  };
}

// Functions that run in the page, for what no driver's command does.
const inPage = {
  focus(id) { document.getElementById(id).focus(); },
  // A text of another field that is selected, to be copied.
  selectText(text) {
    const area = document.createElement('textarea');
    area.id = 'from';
    area.value = text;
    document.body.append(area);
    area.focus();
    area.select();
  },
  removeFrom() { document.getElementById('from').remove(); },
  addChooser() {
    const chooser = document.createElement('input');
    chooser.type = 'file';
    chooser.multiple = true;
    chooser.id = 'from';
    document.body.append(chooser);
  },
  // The event of a drop, with the files of the chooser or with a text.
  dropEvent(id, text) {
    const from = document.getElementById('from'), data = new DataTransfer();
    for (const file of from ? from.files : []) data.items.add(file);
    if (from) from.remove();
    if (text !== null) data.setData('text/plain', text);
    const event = new DragEvent('drop', { bubbles: true, cancelable: true, dataTransfer: data });
    document.getElementById(id).dispatchEvent(event);
  },
  centreOf(id) {
    const target = document.getElementById(id);
    target.scrollIntoView({ block: 'center' });
    const { x, y, width, height } = target.getBoundingClientRect();
    return [x + width / 2, y + Math.min(height / 2, 300)];
  },
};
module.exports = { source, until, sleep, newProfile, end, commands, inPage };
