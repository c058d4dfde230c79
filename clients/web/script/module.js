'use strict';
// The module, and the small parts that the page is made of. What is said of a message is text
// that the module returned.
const MODULE = '{{MODULE}}', ABOUT = '{{ABOUT}}';
const SIDES = ['sent', 'received'];
const otherThan = side => SIDES[side === 'sent' ? 1 : 0];
const NONE = new Uint8Array(0);
const ENCODER = new TextEncoder(), DECODER = new TextDecoder();
const page = { wasm: null };
const $ = id => document.getElementById(id);

function element(name, cls, text, ...inside) {
  const made = document.createElement(name);
  if (cls) made.className = cls;
  if (text) made.textContent = text;
  made.append(...inside);
  return made;
}
function button(text, run, cls) {
  const made = element('button', cls, text);
  made.type = 'button';
  made.onclick = event => { event.stopPropagation(); run(made); };
  return made;
}
const counted = (count, one, many = one + 's') => grouped(count) + ' ' + (count === 1 ? one : many);
const grouped = number => String(number).replace(/\B(?=(\d{3})+$)/g, ',');

// Each call of the module begins with all of its memory given up.
const REFUSED = 'The browser refused the memory that this takes. '
  + 'Close other pages, or show less at once.';
const NO_ROOM = -5;

function roomFor(size) {
  const at = page.wasm.web_alloc(BigInt(size));
  if (at === 0n) throw new Error(REFUSED);
  return at;
}
const ahead = { bytes: NONE, at: 0n }; // what was handed in last for heads of messages
function handIn(bytes) {
  ahead.bytes = NONE;
  const at = roomFor(bytes.length + 1);
  new Uint8Array(page.wasm.memory.buffer, Number(at), bytes.length).set(bytes);
  return [at, BigInt(bytes.length)];
}
// What an export writes; null where it returns -2 or -3.
function written(name, inputs, numbers = [], guess = 65536) {
  page.wasm.web_reset();
  const words = [...inputs.flatMap(handIn), ...numbers.map(BigInt)];
  for (let room = guess; ;) {
    const into = roomFor(room + 1);
    const length = Number(page.wasm[name](...words, into, BigInt(room)));
    if (length === NO_ROOM) throw new Error(REFUSED);
    if (length < 0) return null;
    if (length <= room) {
      return new Uint8Array(page.wasm.memory.buffer, Number(into), length).slice();
    }
    page.wasm.web_free(into);
    room = length;
  }
}
function textFrom(name, inputs, guess) {
  const bytes = written(name, inputs, [], guess);
  return bytes && DECODER.decode(bytes);
}
const PLAIN = 2; // the side of web_bytes that is no side: hex or base64
function decoded(digits) {
  return written('web_bytes', [ENCODER.encode(digits)], [PLAIN], digits.length);
}
// How many bytes the message at the front has by its head, of which it needs eight bytes. What
// follows is handed in with it, for the heads of the messages after it.
const AHEAD = 1 << 16;
function sizeByHead(bytes) {
  const isThere = bytes.buffer === ahead.bytes.buffer && bytes.byteOffset >= ahead.bytes.byteOffset
    && bytes.byteOffset + 8 <= ahead.bytes.byteOffset + ahead.bytes.length;
  if (!isThere) {
    page.wasm.web_reset();
    const part = bytes.subarray(0, AHEAD), [at] = handIn(part);
    Object.assign(ahead, { bytes: part, at });
  }
  const from = ahead.at + BigInt(bytes.byteOffset - ahead.bytes.byteOffset);
  return Number(page.wasm.web_frame(from, BigInt(Math.min(8, bytes.length))));
}

// Work in slices, between which the page is drawn and answers. `step` returns whether more is to
// be done; what began later ends what began before under the same name.
const SLICE = 12; // milliseconds
const begun = new Map();
const pause = () => new Promise(ok => setTimeout(ok, 0));

async function inSlices(name, step) {
  const mine = {};
  begun.set(name, mine);
  for (;;) {
    const end = performance.now() + SLICE;
    do {
      if (!step()) {
        begun.delete(name);
        return true;
      }
    } while (performance.now() < end);
    await pause();
    if (begun.get(name) !== mine) return false;
  }
}
const stopAll = () => begun.clear();

// Steps are a generator, which yields where the page may be drawn in between, and returns what was
// made. They are run at once, or in turns with the page while they are wanted.
const TURN = 60; // milliseconds
const EVERY = 512; // small things that are done between two yields
function atOnce(steps) {
  for (;;) {
    const { done, value } = steps.next();
    if (done) return value;
  }
}
async function inTurns(steps, isWanted, look = () => {}) {
  for (;;) {
    const end = performance.now() + TURN;
    do {
      const { done, value } = steps.next();
      if (done) return value;
      if (value) look(value);
    } while (performance.now() < end);
    await pause();
    if (!isWanted()) return null;
  }
}
// Yields what is made meanwhile, where that may be looked at before it is whole.
function* each(list, run, made) {
  for (let i = 0; i < list.length; i++) {
    run(list[i], i);
    if (i % EVERY === EVERY - 1) yield made;
  }
}
// Whether one of a list is so.
function* someOf(list, isSo) {
  for (let i = 0; i < list.length; i++) {
    if (isSo(list[i])) return true;
    if (i % EVERY === EVERY - 1) yield;
  }
  return false;
}
