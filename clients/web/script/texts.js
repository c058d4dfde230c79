// Which of a text's characters are bytes. A reading is
//   { form, chunks, left, others, notes, unit, pairing }
// where a chunk is { side, bytes, line }, with the side null where the text does not say it, and
// with `damaged` for a line that says its side but has no bytes that can be read. `left` lists
// { line, why } of what was left out, `others` counts lines that are none of the form, and
// `pairing` says how requests find their responses (streams.js).
const BY_PLACES = 'places', BY_ORDER = 'order', BY_STREAM = 'stream';
const MESSAGE = /^4200(?:78|7b)01/i; // how a Request Message or a Response Message begins

function reading(form, pairing) {
  return { form, pairing, chunks: [], left: [], others: 0, notes: [], unit: 'line',
    sides: new Set(), waiting: [], room: DIGITS };
}
// Digits of many lines are handed to the module together; the chunks wait for their bytes.
const DIGITS = 1 << 18;
function handDigits(made, chunk, digits) {
  made.chunks.push(chunk);
  made.waiting.push({ chunk, digits });
  made.room -= digits.length;
  if (made.room < 0) giveBytes(made);
}
function giveBytes(made) {
  if (!made.waiting.length) return;
  const bytes = decoded(made.waiting.map(({ digits }) => digits).join(''));
  let at = 0;
  for (const { chunk, digits } of made.waiting) {
    chunk.bytes = bytes.subarray(at, at + digits.length / 2);
    at += digits.length / 2;
  }
  Object.assign(made, { waiting: [], room: DIGITS });
}
// Hex digits with gaps between them, and why they are no bytes, if so.
const IS_GAP = new Uint8Array(256);
for (const char of '\t\n\v\f\r :,') IS_GAP[char.charCodeAt(0)] = 1;
function digitsOf(text) {
  const bytes = ENCODER.encode(text.replace(/^\s*0x/i, ''));
  let count = 0;
  for (let i = 0; i < bytes.length; i++) if (!IS_GAP[bytes[i]]) bytes[count++] = bytes[i];
  return DECODER.decode(bytes.subarray(0, count));
}
function whyNoHex(digits) {
  const wrong = /[^0-9a-f]/iu.exec(digits);
  if (wrong) return '"' + wrong[0] + '" is no hex digit';
  if (digits.length % 2) return 'a hex digit is missing: their number is odd';
  return digits ? '' : 'there are no bytes';
}
const sideOf = digits => (/^420078/.test(digits) ? 'sent' : 'received');

// A chunk of a line that says its side.
const IS_HEX = /^[0-9a-f]+$/i;
function addLine(made, side, text, line) {
  const isPlain = text.length % 2 === 0 && IS_HEX.test(text);
  const digits = isPlain ? text : digitsOf(text), why = isPlain ? '' : whyNoHex(digits);
  if (why) {
    made.chunks.push({ side, bytes: NONE, line, damaged: why });
    made.left.push({ line, why });
  } else handDigits(made, { side, bytes: NONE, line }, digits);
}

// `> 42..` and `< 42..`, with or without a time and other words before the mark. Where words
// stand before it, what stands after it begins as a message does.
const MARKED = /^(?:(.*?)\s)?(-?>>?|<<?-?)\s+(\S.*)$/;
function markOf(line) {
  const found = /[<>]/.test(line) && MARKED.exec(line);
  if (!found || (found[1] && !/^(?:0x)?42[\s:,]*00/i.test(found[3]))) return null;
  return { side: found[2].includes('>') ? 'sent' : 'received', digits: found[3] };
}
const marks = {
  form: 'a log with lines > and <',
  fits: lines => someOf(lines, line => {
    const mark = markOf(line);
    return mark && !whyNoHex(digitsOf(mark.digits));
  }),
  * read(lines) {
    const made = reading(this.form, BY_ORDER);
    yield* each(lines, (line, i) => {
      const mark = markOf(line);
      if (mark) addLine(made, mark.side, mark.digits, i + 1);
      else if (line.trim()) made.others++;
    }, made);
    return made;
  },
};

// The records of the clients and the scripts of `kmip_run replay`: a call, and the response that
// was recorded for it. The number is that of a line's words.
const CALLS = new Map(Object.entries({ 'query': 2, 'create-rsa': 5, 'rng': 3, 'sign': 4,
  'activate': 3, 'revoke': 3, 'destroy': 3, 'rename': 4, 'get': 3, 'raw': 3,
  'message': 3 }));
// Which of their other words name an object, where that is not the first one.
const NAMING = { 'create-rsa': [1, 3], 'query': [0, 0], 'rng': [0, 0] };
function callOf(line) {
  if (!CALLS.has(line.slice(0, line.indexOf(' ')))) return null;
  const words = line.split(' ');
  if (CALLS.get(words[0]) !== words.length) return null;
  const response = words.at(-1), request = /^(?:raw|message)$/.test(words[0]) ? words[1] : '';
  const isResponse = response === '-' || MESSAGE.test(response);
  return isResponse && (!request || MESSAGE.test(request)) ? { words, request, response } : null;
}
const records = {
  form: 'a script of calls with their recorded responses',
  fits: lines => someOf(lines, callOf),
  * read(lines) {
    const made = reading(this.form, BY_ORDER);
    yield* each(lines, (line, i) => {
      const call = callOf(line);
      if (call) addCall(made, call, i + 1);
      else if (line.trim()) made.left.push({ line: i + 1, why: 'no call with its response' });
    }, made);
    return made;
  },
};
// The request of a call other than `raw` and `message` is not in the record: its chunk has the
// words instead, and which of them name the object.
function addCall(made, { words, request, response }, line) {
  if (request) addLine(made, 'sent', request, line);
  else {
    const asked = words.slice(0, -1), [name, ...others] = asked, from = NAMING[name] || [0, 1];
    const call = { name, words: asked.join(' '), about: others.slice(...from).join(', ') };
    made.chunks.push({ side: 'sent', bytes: NONE, line, call });
  }
  if (response !== '-') addLine(made, 'received', response, line);
}

// Lines whose last word is a whole Request or Response Message: its tag says the side.
const LAST = /(?:^|[\s="'(:[])(?:0x)?(4200(?:78|7b)01[0-9a-f]*)["')\],;]*\s*$/i;
const lastOf = line => (line.includes('4200') ? LAST.exec(line)?.[1] : undefined);
const isHex = line => /^(?:0x)?[0-9a-f]+$/i.test(line);
const tails = {
  form: 'lines that end with a message',
  * fits(lines) {
    if (!(yield* someOf(lines, lastOf))) return false;
    const isFull = line => line.trim() !== '', sides = new Set();
    if (yield* someOf(lines, line => isFull(line) && !isHex(line))) return true;
    const isOther = line => isFull(line) && !(lastOf(line) && sides.add(sideOf(lastOf(line))));
    return !(yield* someOf(lines, isOther)) && sides.size > 1;
  },
  * read(lines) {
    const made = reading(this.form, BY_ORDER);
    yield* each(lines, (line, i) => {
      const digits = lastOf(line);
      if (digits) addLine(made, sideOf(digits), digits, i + 1);
      else if (line.trim()) made.others++;
    }, made);
    return made;
  },
};

// The script of `kmip_run audit`: all that was sent, and all that was received, `-` for nothing.
const audit = {
  form: 'a script of kmip_run audit',
  * fits(lines) {
    const full = [];
    const isMore = line => line.trim() && full.push(line) > 2;
    if (yield* someOf(lines, isMore)) return false;
    const isSide = (line, head) => line === '-' || (isHex(line) && line.startsWith(head));
    return full.length === 2 && isSide(full[0], '420078') && isSide(full[1].toUpperCase(), '42007B')
      && full.some(line => line !== '-');
  },
  * read(lines) {
    const made = reading(this.form, BY_PLACES);
    let next = 0;
    yield* each(lines, (line, i) => {
      if (!line.trim()) return;
      const side = SIDES[next++];
      if (line !== '-') addLine(made, side, line, i + 1);
    });
    return made;
  },
};

// tshark's `follow,tcp,raw`, with or without its header: what the second node sent has a tab
// before it.
const HEADER = /^(?:=+|Follow: .*|Filter: .*|Node \d: .*)$/;
const RAW = /^(\t?)([0-9a-f]+)$/i;
const followed = {
  form: "tshark's follow,tcp,raw or follow,tls,raw",
  * fits(lines) {
    if (yield* someOf(lines, line => /^Follow: \w+,raw$/.test(line))) return true;
    return (yield* someOf(lines, line => /^\t[0-9a-f]{8,}$/i.test(line)))
      && !(yield* someOf(lines, line => line && !RAW.test(line)));
  },
  * read(lines) {
    const made = reading(this.form, BY_STREAM);
    yield* each(lines, (line, i) => {
      const found = RAW.exec(line);
      if (found) addLine(made, SIDES[found[1] ? 1 : 0], found[2], i + 1);
      else if (HEADER.test(line)) made.others++;
      else if (line.trim()) made.left.push({ line: i + 1, why: 'this is no hex' });
    });
    return turned(made);
  },
};

// Arrays of C: `0x42, 0x00`. Wireshark names those of a followed stream peer0_ and peer1_.
const ARRAY = /([A-Za-z_]\w*)?\s*(?:\[[^\]]*\])?\s*=?\s*\{([^{}]*)\}/g;
const lineAt = (text, at) => text.slice(0, at).split('\n').length;
const arrays = {
  form: 'arrays of C',
  fits: lines => someOf(lines, line => /0x[0-9a-f]{1,2}u?\s*,\s*(?:0x|$)/i.test(line)),
  * read(lines) {
    yield;
    const made = reading(this.form, BY_STREAM), blank = comment => comment.replace(/[^\n]/g, ' ');
    const text = lines.join('\n').replace(/\/\*[\s\S]*?\*\/|\/\/.*/g, blank);
    const found = [...text.matchAll(ARRAY)];
    if (!found.length) addArray(made, null, text, 1);
    for (const { 1: name = '', 2: inside, index } of found) {
      const peer = /^peer([01])_/.exec(name);
      addArray(made, peer ? SIDES[peer[1]] : null, inside, lineAt(text, index));
    }
    return turned(made);
  },
};
function addArray(made, side, inside, line) {
  const words = inside.split(/[\s,]+/).filter(Boolean);
  const wrong = words.find(word => !/^0x[0-9a-f]{1,2}u?$/i.test(word));
  const digits = words.map(word => word.replace(/u$/i, '').slice(2).padStart(2, '0')).join('');
  if (!wrong) addLine(made, side, digits, line);
  else made.left.push({ line, why: '"' + wrong.slice(0, 20) + '" is no byte as 0x42' });
}

const ODD_GROUP = /(?:^|[\s:,])(?:[^\s:,]{2})*[^\s:,](?:[\s:,]|$)/;
// Hex alone. Where it is in groups, each has whole bytes: decimal numbers are no hex.
const hex = {
  form: 'hex',
  digits: '',
  * fits(lines) {
    yield;
    const text = lines.join('\n').trim();
    this.digits = digitsOf(text);
    if (/[^0-9a-f\s:,x]/i.test(text) || whyNoHex(this.digits)) return false;
    return !/[ \t:,]/.test(text) || !ODD_GROUP.test(text);
  },
  * read() {
    yield;
    const made = reading(this.form, BY_PLACES);
    made.chunks.push({ side: null, bytes: decoded(this.digits), line: 1 });
    this.digits = '';
    return made;
  },
};
// Base64 alone, of bytes that begin as an item does: prose is no base64.
const base64 = {
  form: 'base64',
  bytes(lines) {
    const text = lines.join('').replace(/\s/g, '');
    if (text.length % 4 || !/^[0-9a-z+/]+={0,2}$/i.test(text)) return null;
    const bytes = decoded(text);
    return bytes?.length >= 8 && bytes[3] >= 1 && bytes[3] <= 10 ? bytes : null;
  },
  * fits(lines) {
    yield;
    return this.bytes(lines) !== null;
  },
  * read(lines) {
    yield;
    const made = reading(this.form, BY_PLACES);
    made.chunks.push({ side: null, bytes: this.bytes(lines), line: 1 });
    return made;
  },
};

// Texts that have the bytes of no message, or not as they were, by how they begin.
const NAMED = () => [
  [/^Follow: \w+,(?!raw|hex)/m, "tshark's follow in this form loses bytes: use follow,tcp,raw"],
  [/^\s*[{[]\s*"(?:tag|RequestMessage|ResponseMessage)/,
    'KMIP messages as JSON: kmip_ttlv makes their bytes'],
  [/^\s*<(?:\?xml|Request|Response|KMIP|TTLV)/i, 'XML: the page reads the bytes of messages'],
  [/^-----BEGIN /m, 'a PEM file: it holds a key or a certificate, and no messages'],
  [/^(?:[<>]~ )?[0-9A-F]{2}\[[0-9A-F[\]a-z:!]*$/m,
    'a diagnostic: it has no values, and so no bytes of a message'],
  [/^0{6,8} +[0-9a-f]{4} [0-9a-f]{4}/mi, WORDS],
  [/\\x[0-9a-f]{2}/i, 'bytes as \\x42: print them as hex first, as by bytes.hex() in Python'],
  [/^\s*\[?\s*\d{1,3}\s*,\s*\d{1,3}\s*,/, 'decimal numbers: print them as hex first'],
];
const FORMS = () => [marks, followed, packets, dumps, records, audit, tails, arrays, hex, base64];

// The lines of a text that comes in parts.
function* linesIn(parts) {
  const lines = [];
  let rest = '';
  for (const part of parts) {
    const found = (rest + part).split(/\r?\n/);
    rest = found.pop();
    for (const line of found) lines.push(line);
    yield;
  }
  lines.push(rest);
  return lines;
}
const SLICED = 1 << 19; // characters or bytes of a text that are taken at once
function* partsOfText(text) {
  const from = text.startsWith('\ufeff') ? 1 : 0;
  for (let at = from; at < text.length; at += SLICED) yield text.slice(at, at + SLICED);
}
const readText = text => readLines(partsOfText(text));
function* readLines(parts) {
  const lines = yield* linesIn(parts);
  if (!(yield* someOf(lines, line => line.trim()))) {
    throw new Error('It has nothing but white space.');
  }
  for (const form of FORMS()) {
    if (yield* form.fits(lines)) {
      const made = yield* form.read(lines);
      giveBytes(made);
      return made;
    }
  }
  const begins = lines.slice(0, 4096).join('\n').slice(0, 4096);
  const named = NAMED().find(([head]) => head.test(begins));
  throw new Error(named ? 'This is ' + named[1] + '.'
    : 'This is no hex, no base64, and no log, dump or script of them.' + firstReason(lines));
}
// Why the first line that says something is no message.
function firstReason(lines) {
  const at = lines.findIndex(line => line.trim()), mark = at >= 0 && markOf(lines[at]);
  const why = at >= 0 && whyNoHex(digitsOf(mark ? mark.digits : lines[at]));
  return why ? ' Line ' + (at + 1) + ': ' + why + '.' : '';
}
