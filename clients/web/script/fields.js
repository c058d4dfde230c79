// The two fields, and what is pasted, chosen or dropped. What is shown is what they hold: each has
// a reading (texts.js) and the number of the load that it is from.
const fields = { sent: null, received: null };
const LONGEST = 100000; // characters that a field shows: with more it is slow
const loads = { next: 0, last: {} };
const placed = (chunk, side) => ({ ...chunk, side: chunk.side || side, unit: fields[side].unit });
const chunksAt = side => (fields[side]?.chunks || []).map(chunk => placed(chunk, side));
const sidesAt = side => new Set([...fields[side]?.sides || []].map(own => own || side));

const NAMED_FILES = [[[0x1f, 0x8b], 'a gzip file: unpack it first'],
  [[0x50, 0x4b, 3, 4], 'a zip file: unpack it first'], [[0x28, 0xb5, 0x2f, 0xfd],
    'a zstd file: unpack it first'], [[0x16, 3], 'TLS, which is encrypted: it wants a proxy, or '
    + 'a key log and tshark -z follow,tls,raw'], [[0x25, 0x50, 0x44, 0x46], 'a PDF file']];
// The text of bytes, in parts: in UTF-16 with its mark, as PowerShell writes, or in UTF-8. Bytes
// that are none throw a TypeError, in whichever part.
function* partsOfBytes(bytes) {
  const isWide = bytes[0] === 0xff && bytes[1] === 0xfe;
  const decoder = new TextDecoder(isWide ? 'utf-16le' : 'utf-8', { fatal: !isWide });
  if (!isWide && bytes.subarray(0, 65536).includes(0)) throw new TypeError('a zero byte');
  for (let at = 0; at < bytes.length; at += SLICED) {
    yield decoder.decode(bytes.subarray(at, at + SLICED), { stream: at + SLICED < bytes.length });
  }
}
function* readGiven(bytes) {
  if (!bytes.length) throw new Error('The file is empty.');
  const named = NAMED_FILES.find(([head]) => head.every((byte, i) => bytes[i] === byte));
  if (named) throw new Error('This is ' + named[1] + '.');
  if (isCapture(bytes)) return readCapture(bytes);
  try {
    return yield* readLines(partsOfBytes(bytes));
  } catch (error) {
    if (!(error instanceof TypeError)) throw error;
  }
  const made = reading('bytes', BY_PLACES);
  made.chunks.push({ side: null, bytes, line: 1 });
  return made;
}
function* readOrSay(steps) {
  try {
    const made = yield* steps;
    yield* each(made.chunks, chunk => made.sides.add(chunk.side));
    if (made.chunks.some(chunk => chunk.bytes.length)) return made;
    return { ...made, chunks: [], sides: new Set(), failed: 'Nothing in it could be read.' };
  } catch (error) {
    return { ...reading('', BY_PLACES), failed: reasonOf(error) };
  }
}
// Reads what may be long, while nothing else is asked for in its field. The first rows are shown
// before all is read.
const FIRST_CHUNKS = 1000;
async function putLong(side, number, steps, name) {
  let isBegun = false;
  const look = made => {
    if (isBegun || made.chunks.length < FIRST_CHUNKS) return;
    isBegun = true;
    giveBytes(made);
    const chunks = made.chunks.slice(0, FIRST_CHUNKS), sides = new Set(SIDES);
    put(side, number, { ...made, chunks, sides, notes: ['the rest is being read'] }, name);
  };
  $('took').textContent = 'reading';
  const made = await inTurns(readOrSay(steps), () => loads.last[side] === number, look);
  return made && put(side, number, { ...made, isRest: isBegun }, name);
}

// Puts a reading in a field. Of two fields that have bytes for the same side, the one that was
// asked for first is emptied.
function put(side, number, made, name) {
  if (loads.last[side] !== number) return;
  fields[side] = { ...made, number, name };
  if (name) $(side).placeholder = name;
  const other = otherThan(side), theirs = sidesAt(other);
  if ([...sidesAt(side)].some(mine => theirs.has(mine))) {
    empty(fields[other].number < number ? other : side);
  }
  for (const field of SIDES) if (!fields[field]) sayWhere(field);
  show();
}
function sayWhere(side) {
  const isThere = sidesAt(otherThan(side)).has(side);
  $(side).placeholder = isThere ? 'what is shown is from the other field' : '';
}
function empty(side) {
  fields[side] = null;
  loads.last[side] = loads.next++;
  $(side).value = '';
  $(side).placeholder = '';
  $(side + '-file').value = '';
}
function ask(side) {
  loads.last[side] = loads.next++;
  return loads.last[side];
}
function takeText(side, text, isTyped) {
  if (!page.wasm) return null; // what stands in a field is read once the module is there
  const number = ask(side), isLong = text.length > LONGEST;
  if (!isTyped) $(side).value = isLong ? '' : text;
  if (isLong && !isTyped) $(side).placeholder = counted(text.length, 'character');
  $(side + '-file').value = '';
  if (!text.trim()) {
    fields[side] = null;
    return show();
  }
  if (isLong) return putLong(side, number, readText(text), '');
  return put(side, number, atOnce(readOrSay(readText(text))), '');
}
async function takeFile(side, file) {
  await page.started;
  const number = ask(side);
  $(side).value = '';
  $(side).placeholder = file.name + ', ' + counted(file.size, 'byte');
  let bytes = null;
  try {
    bytes = new Uint8Array(await file.arrayBuffer());
  } catch (error) {
    const failed = 'The browser could not read ' + file.name + ': ' + reasonOf(error);
    return put(side, number, { ...reading('', BY_PLACES), failed }, file.name);
  }
  return putLong(side, number, readGiven(bytes), file.name);
}
// Two files are what was sent and what was received, in either order.
async function takeFiles(side, files) {
  if (files.length === 1) return takeFile(side, files[0]);
  const firsts = await Promise.all(files.map(firstBytes));
  const isTurned = beginsMessage(firsts[0], 0x7b) || beginsMessage(firsts[1], 0x78);
  const order = isTurned ? [files[1], files[0]] : files;
  return Promise.all(SIDES.map((field, i) => takeFile(field, order[i])));
}
async function firstBytes(file) {
  try {
    return new Uint8Array(await file.slice(0, 8).arrayBuffer());
  } catch {
    return NONE; // what is wrong with it is said where it is read
  }
}

// What is shown: much of it in turns with the page, until something else is to be shown.
const shows = { last: 0, atOnce: 2000 }; // chunks that are shown at once
function show() {
  stopAll();
  $('out').replaceChildren();
  $('left').replaceChildren();
  const number = ++shows.last, held = SIDES.filter(side => fields[side]);
  const count = held.reduce((sum, side) => sum + fields[side].chunks.length, 0);
  const size = held.reduce((sum, side) => sum + (fields[side].chunks[0]?.bytes.length || 0), 0);
  document.body.classList.toggle('empty', !held.length);
  if (!page.wasm || !held.length) {
    $('summary').textContent = '';
    return null;
  }
  const steps = showing(held);
  if (count <= shows.atOnce && size <= PART) return atOnce(steps);
  return inTurns(steps, () => shows.last === number);
}
function* showing(held) {
  const start = performance.now();
  try {
    const chunks = [];
    for (const side of held) {
      yield* each(fields[side].chunks, chunk => chunks.push(placed(chunk, side)));
    }
    const rows = chunks.length ? yield* rowsOfFields(chunks) : [];
    yield;
    sayRead(held, rows, chunks);
    if (rows.length) drawTable(rows, held.some(side => fields[side].isRest));
    if (rows.length === 1) table.body.querySelector('button').click();
  } catch (error) {
    $('summary').append(element('p', 'bad error', reasonOf(error)));
  }
  $('took').textContent = Math.round(performance.now() - start) + ' ms';
}
function* rowsOfFields(chunks) {
  const [first, second] = SIDES.filter(side => fields[side]?.chunks.length);
  const messages = yield* messagesOf(chunks);
  const rows = yield* rowsOf(messages, second ? BY_PLACES : fields[first].pairing);
  const isPaired = SIDES.every(side => rows.some(row => row[side]));
  for (const row of rows) row.isPaired = isPaired;
  return rows;
}
// The summary: what each field holds, how much of it there is, and what was left out.
function sayRead(held, rows, chunks) {
  const lines = held.map(side => sourceWords(fields[side], SIDES.length === held.length && side));
  const size = side => ofSide(chunks, side).reduce((sum, { bytes }) => sum + bytes.length, 0);
  const sizes = SIDES.filter(size).map(side => counted(size(side), 'byte') + ' ' + side);
  if (rows.length) {
    const what = rows[0].isPaired ? 'exchange' : 'message';
    lines.unshift(element('p', '', [counted(rows.length, what), ...sizes].join(', ')));
  }
  $('summary').replaceChildren(...lines);
  for (const side of held) drawLeft(fields[side]);
}
function sourceWords({ failed, form, name, left, others, notes, unit }, side) {
  const front = side ? (side === 'sent' ? 'Sent: ' : 'Received: ') : '';
  if (failed) return element('p', 'bad error', front + failed);
  const words = [form, ...notes];
  if (left.length) words.push(counted(left.length, unit) + ' left out');
  if (others) words.push(counted(others, 'other ' + unit));
  const text = front + (name ? name + ', ' : '') + words.join('; ');
  return element('p', left.length ? 'bad' : 'dim', text);
}
function drawLeft({ left, unit }) {
  if (!left.length) return;
  const made = element('details', 'left', '', element('summary', '', 'What was left out, and why'));
  const list = element('ul');
  for (const { line, why } of left.slice(0, MOST)) {
    list.append(element('li', '', unit + ' ' + line + ': ' + why));
  }
  const more = left.length - MOST;
  if (more > 0) list.append(element('li', '', 'and ' + grouped(more) + ' more'));
  made.append(list);
  made.open = left.length <= 5;
  $('left').append(made);
}
