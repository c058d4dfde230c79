// Captures of unencrypted TCP, as pcap or pcapng: the packets, and what the two ends of each
// connection sent, in order. The script computes this; it looks into no message.
const LINKS = { ETHERNET: 1, NULL: 0, LOOP: 108, RAW: 101, SLL: 113, SLL2: 276, IP4: 228,
  IP6: 229 };
const PCAP = new Map([[0xa1b2c3d4, false], [0xa1b23c4d, false], [0xd4c3b2a1, true],
  [0x4d3cb2a1, true]]); // whether its numbers are little endian
const PCAPNG = 0x0a0d0d0a;
const viewOf = bytes => new DataView(bytes.buffer, bytes.byteOffset, bytes.length);
const magicOf = bytes => (bytes.length >= 4 ? viewOf(bytes).getUint32(0) : 0);
const isCapture = bytes => PCAP.has(magicOf(bytes)) || magicOf(bytes) === PCAPNG;

function readCapture(bytes) {
  const isNext = magicOf(bytes) === PCAPNG;
  const made = reading(isNext ? 'a pcapng file' : 'a pcap file', BY_STREAM);
  made.unit = 'packet';
  return readPackets(made, isNext ? packetsOfPcapng(made, bytes) : packetsOfPcap(made, bytes));
}
function packetsOfPcap(made, bytes) {
  const view = viewOf(bytes), little = PCAP.get(magicOf(bytes)), found = [];
  if (bytes.length < 24) throw new Error('This pcap file is cut off in its head.');
  const link = view.getUint32(20, little) & 0xffff;
  for (let at = 24; at < bytes.length;) {
    const line = found.length + 1, isWhole = at + 16 <= bytes.length;
    const kept = isWhole ? view.getUint32(at + 8, little) : 0;
    if (!isWhole || at + 16 + kept > bytes.length) {
      made.left.push({ line, why: 'the file is cut off in this packet' });
      break;
    }
    const size = view.getUint32(at + 12, little);
    found.push({ bytes: bytes.subarray(at + 16, at + 16 + kept), size, link, line });
    at += 16 + kept;
  }
  return found;
}
// The blocks of pcapng that have packets: enhanced ones (6) and simple ones (3); 1 names a link.
function packetsOfPcapng(made, bytes) {
  const state = { made, found: [], links: [], little: true };
  for (let at = 0; at + 12 <= bytes.length;) {
    const view = viewOf(bytes.subarray(at)), type = view.getUint32(0, state.little);
    if (type === PCAPNG) {
      state.little = view.getUint32(8) !== 0x1a2b3c4d;
      state.links = [];
    }
    const size = view.getUint32(4, state.little);
    if (size < 12 || size % 4 || at + size > bytes.length) {
      made.left.push({ line: state.found.length + 1, why: 'the file is cut off in this packet' });
      break;
    }
    addBlock(state, type, bytes.subarray(at, at + size));
    at += size;
  }
  return state.found;
}
function addBlock({ found, links, little }, type, block) {
  const view = viewOf(block), line = found.length + 1;
  if (type === 1) links.push(view.getUint16(8, little));
  else if (type === 6 && block.length >= 32) {
    const kept = view.getUint32(20, little), size = view.getUint32(24, little);
    const link = links[view.getUint32(8, little)];
    found.push({ bytes: block.subarray(28, 28 + kept), size, link, line });
  } else if (type === 3 && block.length >= 16) {
    const size = view.getUint32(8, little), kept = Math.min(size, block.length - 16);
    found.push({ bytes: block.subarray(12, 12 + kept), size, link: links[0], line });
  }
}

// Where the IP packet begins by the link; -1 where there is none.
function startOfIp(bytes, link) {
  const view = viewOf(bytes);
  const after = at => (bytes.length < at ? -1 : isIp(view.getUint16(at - 2)) ? at : -1);
  if (link === LINKS.ETHERNET) {
    let at = 14;
    while (bytes.length >= at + 4 && [0x8100, 0x88a8].includes(view.getUint16(at - 2))) at += 4;
    return after(at);
  }
  if (link === LINKS.SLL) return after(16);
  if (link === LINKS.SLL2) return bytes.length >= 20 && isIp(view.getUint16(0)) ? 20 : -1;
  return link === LINKS.NULL || link === LINKS.LOOP ? 4 : 0;
}
const isIp = type => type === 0x0800 || type === 0x86dd;
// The link of a packet that says it nowhere: that in which an IP packet of its length is found.
function linkOf(bytes) {
  const isWhole = link => {
    const at = startOfIp(bytes, link);
    if (at < 0 || bytes.length < at + 20) return false;
    const view = viewOf(bytes), kind = bytes[at] >> 4;
    const size = kind === 4 ? view.getUint16(at + 2) : kind === 6 ? view.getUint16(at + 4) + 40 : 0;
    return size >= 20 && at + size <= bytes.length;
  };
  return [LINKS.ETHERNET, LINKS.SLL, LINKS.SLL2, LINKS.NULL, LINKS.RAW].find(isWhole);
}
// The TCP segment of a packet; a text that says why it has none; null where it is not TCP.
function segmentOf({ bytes, size, link }) {
  if (link === undefined) return 'no IP packet is found in it';
  if (!Object.values(LINKS).includes(link)) return 'its link (type ' + link + ') is not known here';
  const at = startOfIp(bytes, link);
  if (at < 0 || bytes.length < at + 20) return null;
  const lost = size - bytes.length;
  return bytes[at] >> 4 === 4 ? segmentIn4(bytes, at, lost)
    : bytes[at] >> 4 === 6 ? segmentIn6(bytes, at, lost) : null;
}
function segmentIn4(bytes, at, lost) {
  const view = viewOf(bytes), length = view.getUint16(at + 2) || bytes.length - at + lost;
  if (bytes[at + 9] !== 6) return null;
  if (view.getUint16(at + 6) & 0x3fff) return 'it is a fragment of an IP packet';
  const addresses = [12, 16].map(offset => bytes.subarray(at + offset, at + offset + 4).join('.'));
  return tcpAt(bytes, at + (bytes[at] & 15) * 4, at + length, addresses);
}
function segmentIn6(bytes, at, lost) {
  if (bytes.length < at + 40) return 'its IP head is cut off';
  const view = viewOf(bytes), length = view.getUint16(at + 4);
  const end = length ? at + 40 + length : bytes.length + lost;
  let kind = bytes[at + 6], from = at + 40;
  while ([0, 43, 60].includes(kind) && from + 8 <= bytes.length) {
    kind = bytes[from];
    from += (bytes[from + 1] + 1) * 8;
  }
  if (kind === 44) return 'it is a fragment of an IP packet';
  if (kind !== 6) return null;
  const word = place => view.getUint16(place).toString(16), words = [0, 2, 4, 6, 8, 10, 12, 14];
  const addresses = [8, 24].map(offset => words.map(x => word(at + offset + x)).join(':'));
  return tcpAt(bytes, from, end, addresses);
}
// `size` is how many bytes were sent, of which the capture may have kept the first ones.
function tcpAt(bytes, at, end, addresses) {
  if (bytes.length < at + 20) return 'its TCP head is cut off';
  const view = viewOf(bytes), from = at + (bytes[at + 12] >> 4) * 4, flags = bytes[at + 13];
  const ends = addresses.map((address, i) => address + ' port ' + view.getUint16(at + 2 * i));
  return { ends, seq: view.getUint32(at + 4), ack: view.getUint32(at + 8), isSyn: (flags & 2) !== 0,
    isAck: (flags & 16) !== 0, size: Math.max(0, end - from), bytes: bytes.subarray(from, end) };
}

// Connections in the order of their first packets. Each has two directions, of which the bytes
// come in the order of their sequence numbers.
function readPackets(made, found) {
  const open = new Map(), all = [];
  for (const packet of found) {
    const segment = segmentOf(packet);
    if (typeof segment === 'string') made.left.push({ line: packet.line, why: segment });
    else if (segment) addSegment(made, open, all, segment, packet.line);
    else made.others++;
  }
  for (const connection of all) {
    for (const way of connection.ways) release(made, connection, way, true);
  }
  return joined(made, all);
}
function addSegment(made, open, all, segment, line) {
  const key = [...segment.ends].sort().join(' '), isNew = segment.isSyn && !segment.isAck;
  let connection = open.get(key);
  if (!connection || (isNew && connection.chunks.length)) {
    const ways = [0, 1].map(() => ({ held: [] }));
    connection = { ends: segment.ends, client: null, chunks: [], ways };
    open.set(key, connection);
    all.push(connection);
  }
  const from = connection.ends.indexOf(segment.ends[0]);
  const way = connection.ways[from], back = connection.ways[1 - from];
  way.from = from;
  if (segment.isSyn) {
    connection.client = segment.isAck ? 1 - from : from;
    way.next = segment.seq + 1 >>> 0;
  }
  way.next ??= segment.seq;
  if (segment.size && !segment.isSyn) way.held.push({ ...segment, line });
  release(made, connection, way, false);
  // What the other end says it has, and the capture has not, is missing.
  if (segment.isAck && back.held.length && isAfter(segment.ack, back.next)) {
    release(made, connection, back, true);
  }
}
const isAfter = (a, b) => a !== b && (a - b >>> 0) < 0x80000000;
// Moves what goes on from what was there; with `all`, what comes after a gap too.
function release(made, connection, way, all) {
  way.held.sort((a, b) => (isAfter(a.seq, b.seq) ? 1 : -1));
  while (way.held.length && (all || !isAfter(way.held[0].seq, way.next))) {
    const { seq, size, bytes, line } = way.held.shift();
    const isGap = isAfter(seq, way.next), known = isGap ? 0 : way.next - seq >>> 0;
    if (known >= size) continue; // sent once more
    if (isGap) missing(made, line, 'before', seq - way.next >>> 0);
    const part = bytes.subarray(known);
    const gap = isGap || way.gap;
    if (part.length) connection.chunks.push({ way: way.from, bytes: part, line, gap });
    way.gap = bytes.length < size;
    if (way.gap) missing(made, line, 'of', size - Math.max(known, bytes.length));
    way.next = seq + size >>> 0;
  }
}
function missing(made, line, where, count) {
  made.left.push({ line, why: counted(count, 'byte') + ' ' + where + ' this packet are missing' });
}

const firstOf = ({ chunks }, way) => chunks.find(chunk => chunk.way === way)?.bytes || NONE;
// The chunks of those connections that have KMIP in them.
function joined(made, all) {
  const isTls = connection => [0, 1].map(way => firstOf(connection, way))
    .some(bytes => bytes[0] === 22 && bytes[1] === 3);
  const isKmip = connection => [0, 1].some(way => beginsMessage(firstOf(connection, way)));
  const full = all.filter(connection => connection.chunks.length), kmip = full.filter(isKmip);
  if (!kmip.length) throw new Error(noKmip(made, full, full.filter(isTls).length));
  for (const connection of kmip) addConnection(made, connection);
  const others = full.length - kmip.length, secret = full.filter(isTls).length;
  const none = counted(others, 'other connection') + ' without KMIP';
  if (others) made.notes.push(none + (secret ? ', of which ' + secret + ' by TLS' : ''));
  return made;
}
function noKmip(made, full, secret) {
  const found = 'In ' + made.form + ' with ' + counted(full.length, 'TCP connection')
    + ' no unencrypted KMIP was found';
  return found + (secret ? '; ' + secret + ' of them by TLS: with a key log '
    + 'tshark -z follow,tls,raw makes the bytes plain.' : '.');
}
function addConnection(made, connection) {
  const firsts = [0, 1].map(way => firstOf(connection, way));
  const asking = firsts.findIndex(bytes => beginsMessage(bytes, 0x78));
  const answering = firsts.findIndex(bytes => beginsMessage(bytes, 0x7b));
  const client = asking >= 0 ? asking : answering >= 0 ? 1 - answering : connection.client;
  made.notes.push('client ' + connection.ends[client] + ', server ' + connection.ends[1 - client]);
  let begins = true;
  for (const { way, bytes, line, gap } of connection.chunks) {
    made.chunks.push({ side: way === client ? 'sent' : 'received', bytes, line, gap, begins });
    begins = false;
  }
}
// Whether bytes begin as a Request Message (0x78), a Response Message (0x7B), or either.
function beginsMessage(bytes, tag) {
  const isTag = tag ? bytes[2] === tag : bytes[2] === 0x78 || bytes[2] === 0x7b;
  return bytes.length >= 4 && bytes[0] === 0x42 && bytes[1] === 0 && isTag && bytes[3] === 1;
}
