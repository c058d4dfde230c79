'use strict';
// Texts and captures of the same messages, in the forms that tools write, made here by their rules.
const two = byte => byte.toString(16).padStart(2, '0');
const hexOf = bytes => bytes.toString('hex');
const rowsOf = (bytes, size) => Array.from({ length: Math.ceil(bytes.length / size) },
  (_, i) => ({ at: size * i, row: bytes.subarray(size * i, size * i + size) }));
const chars = row => [...row].map(x => (x > 32 && x < 127 ? String.fromCharCode(x) : '.')).join('');
const spaced = row => [...row].map(two).join(' ');
const halves = row => spaced(row.subarray(0, 8)).padEnd(23) + '  '
  + spaced(row.subarray(8)).padEnd(23);
const offset = (at, size, base = 16) => at.toString(base).padStart(size, '0');

const lines = (bytes, write) => rowsOf(bytes, 16).map(part => write(part) + '\n').join('');
// Wireshark's hex dump of a followed stream.
const dumpOf = (bytes, indent) => lines(bytes,
  ({ at, row }) => `${indent}${offset(at, 8)}  ${halves(row)}   ${chars(row)}`);
const xxd = bytes => lines(bytes, ({ at, row }) => {
  const groups = hexOf(row).replace(/(....)(?=.)/g, '$1 ').padEnd(39);
  return `${offset(at, 8)}: ${groups}  ${chars(row)}`;
});
// hexdump -C and od, which leave out rows that are as the one before.
function squeezed(bytes, write) {
  let last = '', text = '', isStar = false;
  for (const { at, row } of rowsOf(bytes, 16)) {
    const isSame = row.length === 16 && hexOf(row) === last;
    if (!isSame) text += write(at, row) + '\n';
    else if (!isStar) text += '*\n';
    isStar = isSame;
    last = hexOf(row);
  }
  return text;
}
const hexdump = bytes => squeezed(bytes,
  (at, row) => `${offset(at, 8)}  ${halves(row)}  |${chars(row)}|`)
  + offset(bytes.length, 8) + '\n';
const od = (bytes, base, size) => squeezed(bytes, (at, row) => offset(at, size, base) + ' '
  + spaced(row))
  + offset(bytes.length, size, base) + '\n';
const odWords = bytes => lines(bytes, ({ at, row }) => {
  const words = [...row.swap16().toString('hex').matchAll(/..../g)].join(' ');
  return offset(at, 7, 8) + ' ' + words;
});
const array = (name, bytes) => `unsigned char ${name}[] = {\n`
  + rowsOf(bytes, 12).map(({ row }) => '  '
    + [...row].map(x => '0x' + two(x)).join(', ')).join(',\n')
  + `\n};\nunsigned int ${name}_len = ${bytes.length};\n`;
const followedRaw = parts => '\n' + '='.repeat(67) + '\nFollow: tcp,raw\nFilter: tcp.stream eq 0\n'
  + 'Node 0: 127.0.0.1:40000\nNode 1: 127.0.0.1:5696\n'
  + parts.map(([isServer, bytes]) => (isServer ? '\t' : '') + hexOf(bytes) + '\n').join('')
  + '='.repeat(67) + '\n';

// Packets: TCP within IPv4 or IPv6, within a link's frame.
const ADDRESSES = { 4: [Buffer.from([127, 0, 0, 1]), Buffer.from([127, 0, 0, 2])],
  6: [1, 2].map(x => Buffer.from('20010db8' + '0'.repeat(23) + x, 'hex')) };
function tcp({ from, seq, ack = 0, flags = 0x18, data = Buffer.alloc(0), ports = [40000, 5696] }) {
  const head = Buffer.alloc(20);
  head.writeUInt16BE(ports[from], 0);
  head.writeUInt16BE(ports[1 - from], 2);
  head.writeUInt32BE(seq, 4);
  head.writeUInt32BE(ack, 8);
  head[12] = 0x50;
  head[13] = flags;
  return Buffer.concat([head, data]);
}
function ip(kind, from, body) {
  const head = Buffer.alloc(kind === 4 ? 20 : 40), [a, b] = ADDRESSES[kind];
  const ends = from ? [b, a] : [a, b];
  head[0] = kind === 4 ? 0x45 : 0x60;
  head.writeUInt16BE(kind === 4 ? 20 + body.length : body.length, kind === 4 ? 2 : 4);
  head[kind === 4 ? 9 : 6] = 6;
  ends.forEach((address, i) => address.copy(head, (kind === 4 ? 12 : 8) + i * address.length));
  return Buffer.concat([head, body]);
}
function ethernet(kind, body, isTagged) {
  const type = kind === 4 ? '0800' : '86dd';
  return Buffer.concat([Buffer.from('0'.repeat(24) + (isTagged ? '81000007' : '') + type, 'hex'),
    body]);
}
const packetOf = (segment, kind = 4) => ip(kind, segment.from, tcp(segment));
const frameOf = (segment, kind = 4, isTagged = false) =>
  ethernet(kind, packetOf(segment, kind), isTagged);
function pcap(frames, { link = 1, isLittle = true, kept = Infinity } = {}) {
  const words = (...list) => Buffer.concat(list.map(number => {
    const made = Buffer.alloc(4);
    if (isLittle) made.writeUInt32LE(number);
    else made.writeUInt32BE(number);
    return made;
  }));
  const head = Buffer.concat([words(0xa1b2c3d4, isLittle ? 0x00040002 : 0x00020004),
    words(0, 0, 65535, link)]);
  return Buffer.concat([head, ...frames.flatMap((frame, i) => {
    const part = frame.subarray(0, kept);
    return [words(1764374400 + i, 0, part.length, frame.length), part];
  })]);
}
function pcapng(frames) {
  const words = (...list) => Buffer.concat(list.map(number => {
    const made = Buffer.alloc(4);
    made.writeUInt32LE(number);
    return made;
  }));
  const block = (type, body) => {
    const size = 12 + Math.ceil(body.length / 4) * 4;
    return Buffer.concat([words(type, size), body, Buffer.alloc(size - 12 - body.length),
      words(size)]);
  };
  return Buffer.concat([
    block(0x0a0d0d0a, Buffer.concat([words(0x1a2b3c4d, 1), Buffer.alloc(8, 255)])),
    block(1, words(1, 65535)),
    ...frames.map((frame, i) =>
      block(6, Buffer.concat([words(0, 0, i, frame.length, frame.length), frame])))]);
}
// `tshark -x`: each packet, and a block of what was put together of several.
const BLOCK = 'Reassembled TCP (16 bytes):\n'
  + '0000  42 00 78 01 00 00 00 08  42 00 77 01 00 00 00 00   B.x.....\n';
const tsharkX = frames => frames.map(frame => 'Frame (' + frame.length + ' bytes):\n'
  + lines(frame, ({ at, row }) => `${offset(at, 4)}  ${spaced(row).padEnd(47)}   ${chars(row)}`)
  + BLOCK)
  .join('\n');

module.exports = { hexOf, dumpOf, xxd, hexdump, od, odWords, array, followedRaw, packetOf, frameOf,
  pcap, pcapng, tsharkX };
