'use strict';
// Chromium without a window, over its debugging pipe.
const { spawn } = require('child_process'), fs = require('fs'), path = require('path');
const { source, newProfile, end, commands, inPage } = require('./driver.js');

const WORDS = ['--headless=new', '--no-sandbox', '--disable-gpu', '--remote-debugging-pipe',
  '--no-first-run', '--disable-background-networking', '--window-size=1280,1000', 'about:blank'];

function begin(program, profile) {
  return spawn(program, ['--user-data-dir=' + profile, ...WORDS],
    { stdio: ['ignore', 'ignore', 'ignore', 'pipe', 'pipe'] });
}
// Each message of the pipe ends with a byte 0.
function listen(stream, heard) {
  let chunks = [];
  stream.on('data', data => {
    chunks.push(data);
    if (!data.includes(0)) return;
    let all = Buffer.concat(chunks);
    for (let at; (at = all.indexOf(0)) >= 0; all = all.subarray(at + 1)) {
      heard(JSON.parse(all.subarray(0, at).toString()));
    }
    chunks = all.length ? [all] : [];
  });
}
const EVENTS = {
  'Network.requestWillBeSent': ({ request }, { requests }) => requests.push(request.url),
  'Runtime.exceptionThrown': ({ exceptionDetails: failed }, { said }) =>
    said.push(failed.exception?.description || failed.text),
  'Log.entryAdded': ({ entry }, { said }) => said.push(entry.text),
  'Inspector.targetCrashed': (_, { said }) => said.push('the page crashed'),
};
async function connect(child, lists) {
  const wire = commands(text => child.stdio[3].write(text + '\0'));
  listen(child.stdio[4], ({ id, error, result, method, params }) => {
    if (id) wire.answer(id, !error, error ? error.message : result);
    else EVENTS[method]?.(params, lists);
  });
  const { targetId } = await wire.send('Target.createTarget', { url: 'about:blank' });
  const { sessionId } = await wire.send('Target.attachToTarget', { targetId, flatten: true });
  const to = (method, params) => wire.send(method, params, { sessionId });
  for (const domain of ['Page', 'Runtime', 'Log', 'Network', 'DOM']) await to(domain + '.enable');
  return { to, quit: () => wire.send('Browser.close') };
}
async function call(to, run, words) {
  const made = await to('Runtime.evaluate', { expression: source(run, words), awaitPromise: true,
    returnByValue: true, userGesture: true, allowUnsafeEvalBlockedByCSP: false });
  const { exceptionDetails: failed, result } = made;
  if (failed) throw new Error(failed.exception?.description || failed.text);
  return result.value;
}

async function launch(program) {
  const profile = newProfile(), child = begin(program, profile), lists = { requests: [], said: [] };
  const { to, quit } = await connect(child, lists);
  const page = { name: 'Chromium', ...lists, call: (run, ...words) => call(to, run, words) };
  const command = name => to('Input.dispatchKeyEvent',
    { type: 'keyDown', modifiers: 2, key: 'v', code: 'KeyV', commands: [name] });
  return Object.assign(page, onPage(page, to, command), onScreen(to), {
    close: () => end(child, profile, quit),
  });
}
function onPage(page, to, command) {
  const pasteInto = async id => {
    await page.call(inPage.focus, id);
    await command('paste');
  };
  // A drop, as the window system would bring it.
  const dragged = async (id, data) => {
    const [x, y] = await page.call(inPage.centreOf, id);
    for (const type of ['dragEnter', 'dragOver', 'drop']) {
      await to('Input.dispatchDragEvent', { type, x, y, data: { ...data, dragOperationsMask: 1 } });
    }
  };
  return {
    drop: (id, files) => dragged(id, { items: [], files: files.map(file => path.resolve(file)) }),
    dropText: (id, text) => dragged(id, { items: [{ mimeType: 'text/plain', data: text }] }),
    // The text is selected and copied from another field, and pasted by the keyboard's command.
    paste: async (id, text) => {
      await page.call(inPage.selectText, text);
      await command('copy');
      await page.call(inPage.removeFrom);
      await pasteInto(id);
    },
    pasteInto,
    choose: async (id, ...files) => {
      const { root } = await to('DOM.getDocument');
      const { nodeId } = await to('DOM.querySelector', { nodeId: root.nodeId, selector: '#' + id });
      await to('DOM.setFileInputFiles', { nodeId, files: files.map(file => path.resolve(file)) });
    },
  };
}
const KEYS = { Enter: 13, ArrowDown: 40, ArrowUp: 38, ArrowLeft: 37, ArrowRight: 39, End: 35,
  Home: 36, Tab: 9 };
function onScreen(to) {
  const mouse = (type, [x, y], more) => to('Input.dispatchMouseEvent',
    { type, x, y, button: 'left', clickCount: 1, ...more });
  return {
    view: async (width, height, isDark) => {
      await to('Emulation.setDeviceMetricsOverride',
        { width, height, deviceScaleFactor: 1, mobile: false });
      const value = isDark ? 'dark' : 'light';
      await to('Emulation.setEmulatedMedia',
        { features: [{ name: 'prefers-color-scheme', value }] });
    },
    open: address => to('Page.navigate',
      { url: /^\w+:/.test(address) ? address : 'file://' + path.resolve(address) }),
    press: async key => {
      const text = key === 'Enter' ? '\r' : undefined;
      for (const type of text ? ['rawKeyDown', 'char', 'keyUp'] : ['rawKeyDown', 'keyUp']) {
        await to('Input.dispatchKeyEvent', { type, key, code: key, windowsVirtualKeyCode: KEYS[key],
          text: type === 'char' ? text : undefined });
      }
    },
    drag: async (from, to) => {
      await mouse('mousePressed', from);
      await mouse('mouseMoved', to, { buttons: 1 });
      await mouse('mouseReleased', to);
    },
    shot: async file => {
      const { data } = await to('Page.captureScreenshot', { format: 'png' });
      fs.writeFileSync(file, Buffer.from(data, 'base64'));
    },
  };
}
module.exports = { launch };
