// Dumps with offsets: of xxd, hexdump -C, od -tx1, and Wireshark's and tshark's of a followed
// stream, whose lines are indented on the side that answers.
const ROW = /^(\t| {4})?([0-9a-f]{4,16})(: ?| {1,3})(\S.*)$/i;
const FIRST = /^(?:\t| {4})?0{4,16}(?:: ?| {1,3})[0-9a-f]{2}/i;
const LAST_OFFSET = /^(?:\t| {4})?[0-9a-f]{4,16}$/i;
const COLUMNS = 49; // of the digits of 16 bytes, where two spaces stand after an offset
const WORDS = 'the words of od or hexdump are not in the order of the bytes: '
  + 'use od -Ax -tx1, hexdump -C or xxd';

// The digits of a row, or why it has none.
function rowOf(line) {
  const found = ROW.exec(line);
  if (!found) return null;
  const [, indent, offset, gap, rest] = found;
  const isXxd = gap[0] === ':', isOd = gap === ' ';
  const part = isXxd ? rest.split('  ')[0] : isOd ? rest.split('  >')[0] : rest.slice(0, COLUMNS);
  const groups = part.trim().split(/\s+/);
  const made = { side: indent ? 'received' : 'sent', offset, isOd, digits: groups.join('') };
  if (isOd && groups.some(group => group.length > 2)) made.why = WORDS;
  else if (!isXxd && groups.some(group => group.length !== 2)) {
    made.why = 'a byte has not two digits';
  } else made.why = whyNoHex(made.digits);
  return made;
}
const isFirst = line => FIRST.test(line) && !rowOf(line)?.why;
// In which base the offsets are: that in which the second row begins where the first one ends.
function baseOf(rows) {
  const [first, second] = rows.filter(row => row && !row.why);
  if (!second || !first.isOd) return 16;
  const fits = base => parseInt(second.offset, base) === first.digits.length / 2;
  return [16, 8, 10].find(fits) || 16;
}
const dumps = {
  form: 'a dump with offsets',
  fits: lines => someOf(lines, isFirst),
  * read(lines) {
    const rows = [], made = reading(this.form, BY_STREAM);
    yield* each(lines, line => rows.push(rowOf(line)));
    const state = { made, base: baseOf(rows), sides: {}, last: null };
    yield* each(rows, (row, i) => readRow(state, row, lines[i], i + 1));
    for (const side of SIDES) closeDump(state, side);
    made.chunks.sort((a, b) => a.line - b.line);
    if (state.sides.received) return turned(made);
    return { ...made, chunks: made.chunks.map(chunk => ({ ...chunk, side: null })) };
  },
};
function readRow(state, row, line, number) {
  const { made } = state;
  if (row && !row.why) addRow(state, row, number);
  else if (row) made.left.push({ line: number, why: row.why });
  else if (line.trim() === '*') state.repeats = true;
  else if (LAST_OFFSET.test(line)) endAt(state, parseInt(line.trim(), state.base), number);
  else if (line.trim()) made.others++;
}
// Rows that od, xxd and hexdump leave out where they are as the one before.
function repeatTo(state, offset) {
  const at = state.last && state.sides[state.last];
  while (state.repeats && at && at.next < offset) {
    at.rows.push(at.rows.at(-1));
    at.next += at.rows.at(-1).length / 2;
  }
  state.repeats = false;
}
// The last line of hexdump -C and od is the offset of the end.
function endAt(state, offset, number) {
  repeatTo(state, offset);
  const at = state.last && state.sides[state.last];
  if (!at || at.next === offset) return;
  const ends = 'the end is at ' + offset + ' and not at ' + at.next;
  state.made.left.push({ line: number, why: ends + ': lines are missing before it' });
}
function addRow(state, row, number) {
  const offset = parseInt(row.offset, state.base);
  repeatTo(state, offset);
  if (state.last && state.last !== row.side) closeDump(state, state.last);
  const at = state.sides[row.side] ||= { rows: [], next: 0 };
  if (offset !== at.next) leap(state, row.side, offset, number);
  if (!at.rows.length) at.line = number;
  at.rows.push(row.digits);
  at.next = offset + row.digits.length / 2;
  state.last = row.side;
}
// An offset that does not go on: another dump begins at 0, and elsewhere lines are missing.
function leap(state, side, offset, number) {
  const at = state.sides[side];
  closeDump(state, side);
  at.gap = true;
  if (!offset) return;
  const leapt = 'the offset leaps from ' + at.next + ' to ' + offset;
  state.made.left.push({ line: number, why: leapt + ': lines are missing before it' });
}
function closeDump(state, side) {
  const at = state.sides[side];
  if (!at?.rows.length) return;
  const bytes = decoded(at.rows.join(''));
  state.made.chunks.push({ side, bytes, line: at.line, gap: at.gap });
  at.rows = [];
  at.gap = false;
}

// The packets of `tshark -x`: dumps with offsets of four digits, each from 0000.
const PACKET_ROW = /^([0-9a-f]{4})  ((?:[0-9a-f]{2} {1,2}){1,16})/i;
const OTHER_BLOCK = /^(?!Frame)\S.* \(\d+ bytes\):$/; // put together, as Reassembled TCP
const packets = {
  form: "packets of tshark -x",
  fits: lines => someOf(lines, line => line.startsWith('0000') && PACKET_ROW.test(line + ' ')),
  * read(lines) {
    const blocks = [], made = reading(this.form, BY_STREAM);
    let at = null, isOther = false;
    yield* each(lines, (line, i) => {
      const row = PACKET_ROW.exec(line + ' ');
      if (/ bytes\):$/.test(line)) isOther = OTHER_BLOCK.test(line);
      if (!row) made.others += line.trim() ? 1 : 0;
      else if (isOther) made.others++;
      else at = addPacketRow(made, blocks, at, row, i + 1);
    });
    return readBlocks(made, blocks.map(block => ({ ...block, bytes: decoded(block.digits) })));
  },
};
function addPacketRow(made, blocks, at, [, offset, digits], line) {
  const from = parseInt(offset, 16);
  if (!from) blocks.push(at = { line, digits: '' });
  if (!at || at.digits.length / 2 !== from) {
    made.left.push({ line, why: 'the offset does not go on: lines are missing before it' });
    return null;
  }
  at.digits += digits.replace(/\s/g, '').slice(0, 32);
  return at;
}
// A block is a message, or a packet of any of the links that tshark captures from.
function readBlocks(made, blocks) {
  const isMessage = ({ bytes }) => bytes[0] === 0x42 && bytes[1] === 0 && bytes[3] === 1;
  if (!blocks.some(isMessage)) {
    return readPackets(made, blocks.map(({ bytes, line }) => ({ bytes, size: bytes.length, line,
      link: linkOf(bytes) })));
  }
  for (const block of blocks) {
    if (isMessage(block)) {
      const side = block.bytes[2] === 0x78 ? 'sent' : 'received';
      made.chunks.push({ side, bytes: block.bytes, line: block.line });
    } else made.left.push({ line: block.line, why: 'these bytes are no message' });
  }
  made.pairing = BY_ORDER;
  return made;
}
