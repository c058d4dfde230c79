'use strict';
// Firefox without a window, over WebDriver BiDi. Node needs --experimental-websocket before 22.
const { spawn } = require('child_process'), fs = require('fs'), path = require('path');
const { source, newProfile, end, commands, inPage } = require('./driver.js');

const SETTINGS = { 'browser.shell.checkDefaultBrowser': false, 'browser.startup.page': 0,
  'datareporting.policy.dataSubmissionEnabled': false, 'app.update.auto': false,
  'network.captive-portal-service.enabled': false, 'remote.active-protocols': 1 };

function begin(program, profile) {
  const lines = Object.entries(SETTINGS).map(entry => entry.map(x => JSON.stringify(x)).join(', '));
  fs.writeFileSync(profile + '/user.js', lines.map(line => `user_pref(${line});\n`).join(''));
  return spawn(program, ['--headless', '--no-remote', '--profile', profile,
    '--remote-debugging-port', '0', 'about:blank'], { stdio: ['ignore', 'ignore', 'pipe'],
    env: { ...process.env, MOZ_HEADLESS_WIDTH: '1280', MOZ_HEADLESS_HEIGHT: '1000',
      HOME: profile } });
}
// The address that Firefox listens on stands in what it writes.
function addressOf(child) {
  return new Promise((ok, no) => {
    let text = '';
    child.stderr.on('data', data => {
      text += data;
      const found = /WebDriver BiDi listening on (ws:\S+)/.exec(text);
      if (found) ok(found[1]);
    });
    child.on('exit', () => no(new Error('Firefox ended: ' + text.slice(-300))));
    setTimeout(() => no(new Error('Firefox does not listen: ' + text.slice(-300))), 120000).unref();
  });
}
async function connect(child, lists) {
  const socket = new WebSocket(await addressOf(child) + '/session');
  await new Promise((ok, no) => {
    socket.onopen = ok;
    socket.onerror = () => no(new Error('no connection to Firefox'));
  });
  const wire = commands(text => socket.send(text));
  socket.onmessage = event => {
    const { id, type, message, result, method, params } = JSON.parse(event.data);
    if (id) wire.answer(id, type !== 'error', type === 'error' ? message : result);
    else if (method === 'network.beforeRequestSent') lists.requests.push(params.request.url);
    else if (method === 'log.entryAdded') lists.said.push(params.text);
  };
  await wire.send('session.new', { capabilities: {} });
  await wire.send('session.subscribe', { events: ['network.beforeRequestSent', 'log.entryAdded'] });
  const { context } = await wire.send('browsingContext.create', { type: 'window' });
  await wire.send('browsingContext.activate', { context });
  return { send: wire.send, context, socket };
}
async function call({ send, context }, run, words) {
  const expression = `(async () => JSON.stringify(await ${source(run, words)}))()`;
  const made = await send('script.evaluate',
    { expression, target: { context }, awaitPromise: true, userActivation: true });
  if (made.type === 'exception') throw new Error(made.exceptionDetails.text);
  return made.result.value === undefined ? undefined : JSON.parse(made.result.value);
}

async function launch(program) {
  const profile = newProfile(), child = begin(program, profile), lists = { requests: [], said: [] };
  const wire = await connect(child, lists);
  const page = { name: 'Firefox', ...lists, call: (run, ...words) => call(wire, run, words) };
  return Object.assign(page, onPage(page, wire), onScreen(wire), {
    close: async () => {
      await end(child, profile, () => wire.send('browser.close'));
      wire.socket.close();
    },
  });
}
const CONTROL = '\uE009';
const KEYS = { Enter: '\uE007', Tab: '\uE004', ArrowDown: '\uE015', ArrowUp: '\uE013',
  ArrowLeft: '\uE012', ArrowRight: '\uE014', Home: '\uE011', End: '\uE010' };
function keysOf({ send, context }) {
  const perform = actions => send('input.performActions',
    { context, actions: [{ type: 'key', id: 'keyboard', actions }] });
  const down = value => ({ type: 'keyDown', value }), up = value => ({ type: 'keyUp', value });
  return {
    press: key => perform([down(KEYS[key] || key), up(KEYS[key] || key)]),
    withControl: key => perform([down(CONTROL), down(key), up(key), up(CONTROL)]),
  };
}
function onPage(page, wire) {
  const { withControl, press } = keysOf(wire);
  const choose = async (id, ...files) => {
    const made = await wire.send('script.evaluate', { target: { context: wire.context },
      expression: `document.getElementById('${id}')`, awaitPromise: false });
    await wire.send('input.setFiles', { context: wire.context,
      element: { sharedId: made.result.sharedId }, files: files.map(file => path.resolve(file)) });
  };
  const pasteInto = async id => {
    await page.call(inPage.focus, id);
    await withControl('v');
  };
  return {
    // WebDriver has no drop from the window system: the page gets the event that one brings.
    drop: async (id, files) => {
      await page.call(inPage.addChooser);
      await choose('from', ...files);
      await page.call(inPage.dropEvent, id, null);
    },
    dropText: (id, text) => page.call(inPage.dropEvent, id, text),
    paste: async (id, text) => {
      await page.call(inPage.selectText, text);
      await withControl('c');
      await page.call(inPage.removeFrom);
      await pasteInto(id);
    },
    pasteInto, choose, press,
  };
}
function onScreen({ send, context }) {
  const point = ([x, y]) => ({ x: Math.round(x), y: Math.round(y) });
  return {
    view: (width, height) => send('browsingContext.setViewport',
      { context, viewport: { width, height } }),
    open: address => send('browsingContext.navigate', { context, wait: 'complete',
      url: /^\w+:/.test(address) ? address : 'file://' + path.resolve(address) }),
    drag: (from, to) => send('input.performActions', { context, actions: [{ type: 'pointer',
      id: 'mouse', actions: [{ type: 'pointerMove', ...point(from) },
        { type: 'pointerDown', button: 0 },
        { type: 'pointerMove', ...point(to), duration: 200 },
          { type: 'pointerUp', button: 0 }] }] }),
    shot: async file => {
      const { data } = await send('browsingContext.captureScreenshot', { context });
      fs.writeFileSync(file, Buffer.from(data, 'base64'));
    },
  };
}
module.exports = { launch };
