// The lines of a listing, and how values are drawn.
const SHOWN = 4000; // characters of a value that are drawn at once
const BLOCK = 1 << 14; // of a longer one that are drawn as one block
const PART = 1 << 17; // bytes that are listed at once

function partsOf(line) {
  const [at, tag, name, kind, value] = line.split('\t');
  return { at: Number(at), tag, name, kind, value };
}
const CLOSING = ']';
const isAttributeName = line => /^\d+\t42000A\t[^\t]*\tTextString\t/.test(line);
const isStructure = line => line.split('\t', 4)[3] === 'Structure';
const mayBeSecret = ({ name, kind }) => kind === 'ByteString' || kind === 'BigInteger'
  || (kind === 'TextString' && /password|secret/i.test(name));
const linesOf = bytes => textFrom('web_listing', [bytes], 65536 + 3 * bytes.length)
  .split('\n').slice(0, -1);
// Where bytes stop being items, and why: at their end, where all of them are.
function faultOf(bytes) {
  const fault = textFrom('web_fault', [bytes]), at = fault.indexOf(' ');
  return fault ? { at: Number(fault.slice(0, at)), why: fault.slice(at + 1) }
    : { at: bytes.length, why: '' };
}

// The listing of a message, which is made part by part where the message is long: a part ends
// anywhere, what is listed of it ends where its items do, and the next one begins there. `ends`
// has for each line where the lines of its item end; `closes`, where the bytes of the structures
// that are open end, by their heads; `names`, where the last Attribute Name of each begins.
function newListing(bytes, end) {
  return { bytes, end, lines: [], ends: [], open: [], closes: [], names: [], at: 0, part: PART,
    room: PART, isLong: bytes.length > PART, isDone: false, waiting: [], shown: new Set() };
}
function listNext(listing) {
  const limit = Math.min(listing.closes.at(-1) ?? listing.end, listing.end);
  const part = listing.bytes.subarray(listing.at, Math.min(listing.at + listing.room, limit));
  const isAll = listing.at + part.length === limit, count = faultOf(part).at;
  if (!count && !isAll) listing.room *= 4;
  else {
    addLines(listing, ...linesAfter(listing, part));
    listing.at += count;
    listing.room = listing.part;
    closeStructures(listing);
  }
  listing.isDone = listing.at === listing.end || (isAll && !count) || !listing.isLong;
  const waiting = listing.waiting;
  listing.waiting = [];
  listing.waiting.push(...waiting.filter(run => run()));
  return !listing.isDone;
}
// The lines of a part, and what is added to their places. They stand behind the Attribute Name
// before the part in the same structure, by which the listing names values.
function linesAfter(listing, part) {
  const at = listing.names[listing.open.length];
  if (at === undefined) return [linesOf(part), listing.at];
  const size = 8 + Math.ceil(new DataView(listing.bytes.buffer, listing.bytes.byteOffset + at)
    .getUint32(4) / 8) * 8;
  const both = new Uint8Array(size + part.length);
  both.set(listing.bytes.subarray(at, at + size));
  both.set(part, size);
  return [linesOf(both).slice(1), listing.at - size];
}
function addLines(listing, lines, base) {
  for (const line of lines) {
    const i = listing.lines.length, tab = line.indexOf('\t');
    const added = base && tab > 0 ? Number(line.slice(0, tab)) + base + line.slice(tab) : line;
    listing.lines.push(added);
    if (line === CLOSING) {
      listing.names.length = listing.open.length;
      listing.ends[listing.open.pop()] = i + 1;
    } else if (isStructure(line)) listing.open.push(i);
    else listing.ends[i] = i + 1;
    if (isAttributeName(line)) listing.names[listing.open.length] = partsOf(added).at;
  }
}
function closeStructures(listing) {
  while (listing.closes.length < listing.open.length) {
    const at = partsOf(listing.lines[listing.open[listing.closes.length]]).at;
    listing.closes.push(at + sizeByHead(listing.bytes.subarray(at)));
  }
  while (listing.closes.length && listing.at >= listing.closes.at(-1) && listing.isLong) {
    addLines(listing, [CLOSING], 0);
    listing.closes.pop();
  }
}
// Where the bytes of an item end: where the next one begins.
function endOfItem(listing, i) {
  for (let next = listing.ends[i] ?? listing.lines.length; next < listing.lines.length; next++) {
    if (listing.lines[next] !== CLOSING) return partsOf(listing.lines[next]).at;
  }
  return listing.at;
}

// A text, isolated, so that its characters turn round nothing beside it. A long one is cut.
function textOf(text) {
  const made = element('bdi', 'text');
  if (text.length <= SHOWN) made.textContent = text;
  else {
    made.textContent = text.slice(0, SHOWN);
    const label = 'show all ' + grouped(text.length) + ' characters';
    made.append(button(label, pressed => drawLong(made, pressed, text), 'all'));
  }
  return made;
}
// All of a long text, in blocks that the browser lays out where they are seen.
function drawLong(into, made, text) {
  let at = SHOWN;
  made.onclick = event => {
    event.stopPropagation();
    at = text.length;
  };
  inSlices(made, () => {
    if (at < text.length) {
      made.before(element('span', 'block', text.slice(at, at + BLOCK)));
      at += BLOCK;
      made.textContent = 'stop: ' + Math.floor(100 * Math.min(1, at / text.length)) + ' % is shown';
    }
    if (at >= text.length) made.remove();
    return at < text.length;
  });
}
// A value that may be secret is drawn when it is asked for, and may be hidden again.
function valueOf(text, isHidden, changed = () => {}) {
  const made = element('span', 'value'), inside = element('span');
  if (!isHidden || !text) {
    made.append(textOf(text));
    return made;
  }
  const toggle = button('hidden: show', () => {
    const isShown = toggle.textContent === 'hide';
    toggle.textContent = isShown ? 'hidden: show' : 'hide';
    inside.replaceChildren(...(isShown ? [] : [textOf(text)]));
    changed(!isShown);
  }, 'secret');
  made.append(toggle, ' ', inside);
  return made;
}
function dateAt(bytes, at) {
  const json = textFrom('web_decode', [bytes.subarray(at, at + 16)]);
  return json ? JSON.parse(json).value : '';
}
