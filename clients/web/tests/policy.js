'use strict';
// What the page's policy stops: each attempt is made from within the page, and from a page without
// a policy, against a listener of this machine that counts what reaches it.
const dgram = require('dgram'), http = require('http'), os = require('os'), path = require('path');
const { until, sleep } = require('./driver.js'), { seen } = require('./harness.js');

// Counts requests by the last part of their path, and datagrams.
async function listen() {
  const counts = new Map(), add = name => counts.set(name, (counts.get(name) || 0) + 1);
  const server = http.createServer((request, answer) => {
    add(new URL(request.url, 'http://x').pathname.slice(1));
    answer.writeHead(200, { 'Access-Control-Allow-Origin': '*', 'Content-Type': 'text/html' });
    answer.end('<p>reached</p>');
  });
  server.on('upgrade', (request, socket) => {
    add(request.url.slice(1));
    socket.destroy();
  });
  await new Promise(ok => server.listen(0, '127.0.0.1', ok));
  const { port } = server.address(), datagrams = dgram.createSocket('udp4');
  datagrams.on('message', () => add('webrtc'));
  await new Promise(ok => datagrams.bind(port, '0.0.0.0', ok));
  return { counts, port, close: () => { server.close(); datagrams.close(); } };
}
// The attempts. Each runs in the page, with the address that names it.
const attempts = {
  fetch(to) { return fetch(to).catch(() => 0); },
  request(to) {
    const request = new XMLHttpRequest();
    request.open('POST', to);
    request.send('x');
  },
  beacon(to) { navigator.sendBeacon(to, 'x'); },
  image(to) { new Image().src = to; },
  font(to) { return new FontFace('other', 'url(' + to + ')').load().catch(() => 0); },
  stylesheet(to) {
    const link = document.createElement('link');
    link.rel = 'stylesheet';
    link.href = to;
    document.head.append(link);
  },
  script(to) {
    const script = document.createElement('script');
    script.src = to;
    document.body.append(script);
  },
  frame(to) {
    const frame = document.createElement('iframe');
    frame.src = to;
    document.body.append(frame);
  },
  media(to) {
    const video = document.createElement('video');
    video.src = to;
    document.body.append(video);
    video.load();
  },
  object(to) {
    const object = document.createElement('object');
    object.data = to;
    document.body.append(object);
  },
  events(to) { new EventSource(to); },
  socket(to) { new WebSocket(to.replace('http', 'ws')); },
  form(to) {
    const form = document.createElement('form');
    form.action = to;
    form.target = 'other';
    form.method = 'post';
    document.body.append(form);
    const frame = document.createElement('iframe');
    frame.name = 'other';
    document.body.append(frame);
    form.submit();
  },
};
// What runs a text as a program in the page.
const programs = {
  script() {
    const script = document.createElement('script');
    script.textContent = 'window.ran = 1';
    document.body.append(script);
    return window.ran === 1;
  },
  handler() {
    const paragraph = document.createElement('p');
    paragraph.setAttribute('onclick', 'window.clicked = 1');
    paragraph.click();
    return window.clicked === 1;
  },
  // Later, since a driver's own program may do what the page's may not.
  eval: () => new Promise(ok => setTimeout(() => {
    try {
      ok(window.eval('1') === 1);
    } catch {
      ok(false);
    }
  }, 0)),
  worker: () => new Promise(ok => {
    const worker = new Worker(URL.createObjectURL(new Blob(['postMessage(1)'])));
    worker.onmessage = () => ok(true);
    worker.onerror = () => ok(false);
    setTimeout(() => ok(false), 2000);
  }),
};
// An address of this machine that WebRTC of both browsers goes to: Firefox's leaves out 127.0.0.1.
const here = Object.values(os.networkInterfaces()).flat()
  .find(({ family, internal }) => family === 'IPv4' && !internal)?.address || '127.0.0.1';
// What a policy of a page does not govern.
const others = {
  async webrtc(to, host) {
    const urls = 'stun:' + host + ':' + new URL(to).port;
    const connection = new RTCPeerConnection({ iceServers: [{ urls }] });
    connection.createDataChannel('x');
    await connection.setLocalDescription(await connection.createOffer());
  },
  location(to) { location.href = to; },
};
const attempt = (page, run, to) => page.call(run, to, here).catch(() => 'refused');
async function tryAll(page, { port, counts }) {
  counts.clear();
  for (const [name, run] of Object.entries(attempts)) {
    await attempt(page, run, `http://127.0.0.1:${port}/${name}`);
  }
  await sleep(1500);
  return Object.keys(attempts).filter(name => counts.get(name));
}
async function runAll(page) {
  const ran = [];
  for (const [name, run] of Object.entries(programs)) {
    if (await page.call(run).catch(() => false) === true) ran.push(name);
  }
  return ran;
}
async function policy({ verdict, folder, file, launch }) {
  const page = await launch(), listener = await listen(), all = Object.keys(attempts);
  await page.open(file('plain.html', '<!doctype html><html><body><p>no policy</p></body></html>'));
  const plain = await tryAll(page, listener), ran = await runAll(page);
  verdict('without a policy each attempt reaches a listener', String(plain) === String(all),
    all.filter(name => !plain.includes(name)));
  verdict('and each program runs', ran.length === Object.keys(programs).length, ran);
  await page.open(path.join(folder, 'kmip.html'));
  await until(page, 20, seen.isReady);
  const reached = await tryAll(page, listener), inside = await runAll(page);
  for (const name of all) verdict('stopped by the policy: ' + name, !reached.includes(name));
  verdict('no other program runs in the page', !inside.length, inside);
  await unstopped(verdict, page, listener);
  listener.close();
  await page.close();
}
// These reach the listener, as PAGE.md says: what keeps them away is that the script has no words
// for them.
async function unstopped(verdict, page, { port, counts }) {
  const script = await page.call(() => document.scripts[0].textContent.replace(MODULE, ''));
  const words = new RegExp(['\\bRTC', '\\blocation\\b', '\\bwindow\\.open', '\\.submit\\(',
    '\\bfetch\\(', 'sendBeacon', 'XMLHttp', 'WebSocket', 'EventSource', 'import\\('].join('|'));
  verdict('the script has no words for what the policy does not stop', !words.test(script),
    words.exec(script));
  counts.clear();
  for (const [name, run] of Object.entries(others)) {
    await attempt(page, run, `http://127.0.0.1:${port}/${name}`);
    await sleep(2000);
  }
  verdict('what it does not stop is what PAGE.md says: WebRTC, and going to another page',
    counts.get('webrtc') > 0 && counts.get('location') > 0, [...counts]);
}
module.exports = { policy };
