'use strict';
// What is read of texts, files and captures: which bytes are of which side, and what is left out.
const fs = require('fs');
const messages = require('./messages.js'), forms = require('./forms.js');
const { until } = require('./driver.js'), { seen } = require('./harness.js');
const { hexOf } = forms;

const [[request, response], [second, answer]] = [1, 2].map(number => messages.exchange(number, 32));
const sent = Buffer.concat([request, second]), received = Buffer.concat([response, answer]);
const bothSides = ['sent ' + hexOf(sent), 'received ' + hexOf(received)];
// The bytes of each side, put together.
const sidesOf = chunks => ['sent', 'received'].map(side => side + ' '
  + chunks.filter(chunk => chunk.startsWith(side)).map(chunk => chunk.split(' ')[1]).join(''))
  .filter(text => !text.endsWith(' '));

// Texts that give both sides, whichever field they stand in.
const log = `connected\n> ${hexOf(request)}\n>~ 78[..]\n< ${hexOf(response)}\n> ${hexOf(second)}\n`
  + `< ${hexOf(answer)}\nclosed\n`;
const timed = log.replace(/^([<>] )/gm, '2025-11-29 09:00:00,123 DEBUG kmip: $1');
const arrow = `12:00:01.5 -> ${hexOf(request)}\n12:00:01.6 <- ${hexOf(response)}\n`
  + `12:00:02.5 -> ${hexOf(second)}\n12:00:02.6 <- ${hexOf(answer)}\n`;
const chunked = [request, response, second, answer].map((message, i) => {
  const mark = i % 2 ? '< ' : '> ';
  return mark + hexOf(message.subarray(0, 8)) + '\n' + mark + hexOf(message.subarray(8)) + '\n';
}).join('');
const parts = [[0, request], [1, response], [0, second], [1, answer]];
const followed = forms.dumpOf(request, '') + forms.dumpOf(response, '    ');
const both = {
  'a log': log, 'a log with times': timed, 'a log with arrows': arrow,
  'a log with what each read gave': chunked,
  'records of raw calls': `raw ${hexOf(request)} ${hexOf(response)}\n`
    + `raw ${hexOf(second)} ${hexOf(answer)}\n`,
  'records of a message and a raw call': `message ${hexOf(request)} ${hexOf(response)}\n`
    + `raw ${hexOf(second)} ${hexOf(answer)}\n`,
  'a script of kmip_run audit': `${hexOf(sent)}\n${hexOf(received)}\n`,
  'lines that end with messages': [request, response, second, answer]
    .map((message, i) => `09:00:0${i} wire="${hexOf(message)}"\n`).join(''),
  'messages, one a line': [request, response, second, answer]
    .map(message => hexOf(message) + '\n').join(''),
  "tshark's follow,tcp,raw": forms.followedRaw(parts),
  "tshark's follow,tls,raw": forms.followedRaw(parts).replace('tcp,raw', 'tls,raw'),
  'the same without its header': parts
    .map(([at, message]) => (at ? '\t' : '') + hexOf(message)).join('\n'),
  'the same, where the server stands first':
    forms.followedRaw(parts.map(([at, message]) => [1 - at, message])),
  "Wireshark's hex dump": forms.dumpOf(sent, '') + forms.dumpOf(received, '    '),
  "tshark's hex dump": forms.dumpOf(sent, '') + forms.dumpOf(received, '\t'),
  "Wireshark's C arrays": forms.array('peer0_0', sent) + forms.array('peer1_0', received),
};
// Texts of one side, which is that of the field.
const one = {
  'hex': hexOf(sent), 'hex with 0x': '0x' + hexOf(sent),
  'hex with gaps': hexOf(sent).replace(/(..)/g, '$1 ').toUpperCase().replace(/((?:.. ){16})/g,
    '$1\r\n'),
  'hex with colons': hexOf(sent).replace(/(..)(?=.)/g, '$1:'),
  'hex in lines of any length': hexOf(sent).replace(/(.{75})/g, '$1\n'),
  'base64': sent.toString('base64').replace(/(.{64})/g, '$1\n'),
  'xxd': forms.xxd(sent), 'hexdump -C': forms.hexdump(sent), 'od -Ax -tx1': forms.od(sent, 16, 6),
  'od -tx1': forms.od(sent, 8, 7), 'od -Ad -tx1': forms.od(sent, 10, 7),
  'an array of C': forms.array('sent_bin', sent),
  'bytes of C alone': [...sent].map(x => '0x' + x.toString(16).padStart(2, '0')).join(', '),
};
// What is no input, and the words that name it.
const named = {
  'prose': ['no hex!', 'no hex, no base64'],
  'a word that could be base64': ['Abcdefgh', 'no hex, no base64'],
  'a damaged array of C': ['{ 0x42, 0x00, 1x78 }', 'could be read'],
  'an odd digit': [hexOf(request) + '1', 'their number is odd'],
  'a diagnostic': ['78[77[69[6Ai6Bi]0Di]]', 'a diagnostic'],
  'JSON': ['{"tag":"RequestMessage","value":[]}', 'kmip_ttlv'],
  'XML': ['<RequestMessage></RequestMessage>', 'XML'],
  'escapes': ['b"B\\x00x\\x01"', 'bytes.hex()'],
  'decimal numbers': ['[66, 0, 120, 1]', 'decimal'],
  'the words of od': [forms.odWords(Buffer.from(request)), 'od -Ax -tx1'],
  "tshark's follow,tcp,ascii": ['Follow: tcp,ascii\nNode 0: a\nB.x\n', 'follow,tcp,raw'],
};
const namedFiles = {
  'a gzip file': [Buffer.from('1f8b08000000', 'hex'), 'gzip'],
  'a capture of TLS': [forms.pcap([forms.frameOf({ from: 0, seq: 1,
    data: Buffer.from('160301000100', 'hex') })]), '1 of them by TLS'],
  'a capture without KMIP': [forms.pcap([forms.frameOf({ from: 0, seq: 1,
    data: Buffer.from('GET / HTTP/1.1') })]), 'no unencrypted KMIP'],
};

async function texts({ verdict }, page) {
  for (const [name, text] of Object.entries(both)) {
    for (const side of ['sent', 'received']) {
      await page.call(seen.clear);
      await page.call(seen.give, side, text);
      const got = sidesOf(await page.call(seen.chunks)), rows = await page.call(seen.rows);
      const words = rows.map(row => row[4]).join();
      verdict(`${name}, in the field ${side}`, String(got) === String(bothSides)
        && words === 'answered Get,answered Destroy', [got, words, await page.call(seen.summary)]);
    }
  }
  for (const [name, text] of Object.entries(one)) {
    for (const side of ['sent', 'received']) {
      await page.call(seen.clear);
      await page.call(seen.give, side, text);
      const got = sidesOf(await page.call(seen.chunks));
      verdict(`${name}, in the field ${side}`, String(got) === side + ' ' + hexOf(sent), got);
    }
  }
}
async function names({ verdict, file }, page) {
  for (const [name, [text, words]] of Object.entries(named)) {
    await page.call(seen.clear);
    await page.call(seen.give, 'sent', text);
    const said = await page.call(seen.summary), chunks = await page.call(seen.chunks);
    const left = await page.call(seen.left);
    verdict('named: ' + name, (said + left).includes(words) && !chunks.length,
      [said, left, chunks]);
  }
  for (const [name, [bytes, words]] of Object.entries(namedFiles)) {
    await page.call(seen.clear);
    await page.drop('sent', [file('named', bytes)]);
    const isSaid = await until(page, 10, has => document.getElementById('summary').innerText
      .includes(has), words);
    verdict('named: ' + name, isSaid, await page.call(seen.summary));
  }
}

// Damage: what is left out is said with its number, and nothing else is lost.
async function damages({ verdict }, page) {
  const pairs = Array.from({ length: 20 }, (_, i) => messages.exchange(i + 1, 32));
  const lines = pairs.flatMap(([a, b]) => ['> ' + hexOf(a), '< ' + hexOf(b)]);
  const outcomes = async text => {
    await page.call(seen.clear);
    await page.call(seen.give, 'sent', text);
    return (await page.call(seen.rows)).map(row => row[3] + ' ' + row[4]);
  };
  const whole = await outcomes(lines.join('\n')), changed = (at, other) =>
    lines.map((line, i) => (i === at ? other : line)).join('\n');
  verdict('a whole log has its 20 exchanges', whole.length === 20
    && whole.every(words => /^(Success answered|OperationFailed: \w+ failed)/.test(words)), whole);
  const isKept = (got, at, words) => got.length === 20 && got.every((outcome, i) =>
    (i === at ? outcome.includes(words) : outcome === whole[i]));
  const torn = await outcomes(changed(6, lines[6].slice(0, -3)));
  verdict('a line with an odd digit takes no other line with it', isKept(torn, 3, 'left out'),
    torn);
  const left = await page.call(seen.left);
  verdict('it is listed with its number and why',
    left.includes('line 7: a hex digit is missing'), left);
  const spoilt = await outcomes(changed(7, lines[7].replace('42', '4z')));
  verdict('a line with a wrong character too', isKept(spoilt, 3, 'response left out'), spoilt);
  const cut = await outcomes(changed(6, lines[6].slice(0, -16)));
  verdict('a message that is cut off takes no other row', isKept(cut, 3, 'request not whole'), cut);
  const long = await outcomes(changed(6, lines[6].replace('> 42007801000000', '> 42007801000001')));
  verdict('a length that leads too far takes no other row', isKept(long, 3, 'not whole'), long);
  const missed = await outcomes(lines.filter((_, i) => i !== 7).join('\n'));
  verdict('a response that is missing takes no other row', isKept(missed, 3, 'no response'),
    missed);
}
async function dumpDamage({ verdict }, page) {
  const rows = forms.xxd(sent).split('\n');
  await page.call(seen.clear);
  await page.call(seen.give, 'sent', rows.filter((_, i) => i !== 2).join('\n'));
  const left = await page.call(seen.left), table = await page.call(seen.rows);
  verdict('a row that is missing in a dump is said',
    left.includes('line 3: the offset leaps from 32'),
    [left, table]);
  const last = forms.hexdump(sent).trim().split('\n');
  await page.call(seen.clear);
  await page.call(seen.give, 'sent', [...last.slice(0, -2), last.at(-1)].join('\n'));
  const end = await page.call(seen.left);
  verdict('so is one at the end', end.includes('the end is at 240 and not at 224'), end);
  const zeros = messages.structure(0x420078, messages.bytes(0x420043, Buffer.alloc(200)));
  for (const name of ['hexdump', 'od']) {
    const text = name === 'od' ? forms.od(zeros, 16, 6) : forms.hexdump(zeros);
    await page.call(seen.clear);
    await page.call(seen.give, 'sent', text);
    const got = await page.call(seen.chunks);
    verdict(`rows that ${name} writes as * are there`, text.includes('\n*\n')
      && String(got) === 'sent ' + hexOf(zeros), got);
  }
}
async function records({ verdict }, page) {
  const script = `get key-1 ${hexOf(response)}\n`
    + `raw ${hexOf(second)} ${hexOf(answer)}\nsign k1 01\n`;
  await page.call(seen.clear);
  await page.call(seen.give, 'received', script);
  const rows = await page.call(seen.rows), left = await page.call(seen.left);
  verdict("a record of typed and raw calls is read", rows.length === 2 && rows[0][1] === 'Get'
    && rows[0][2] === 'key-1' && rows[0][3] === 'Success' && rows[1][4] === 'answered Destroy',
      rows);
  verdict('a call without a response is said', left.includes('line 3: no call'), left);
}

// Captures, with what happens to segments on the way.
const SYNS = [{ from: 0, seq: 99, flags: 2 }, { from: 1, seq: 4294967290, flags: 18, ack: 100 }];
function conversation(size) {
  const next = [100, 4294967291], made = [...SYNS];
  for (const [from, data] of parts) {
    for (let at = 0; at < data.length; at += size) {
      const part = data.subarray(at, at + size);
      made.push({ from, seq: next[from] >>> 0, ack: next[1 - from] >>> 0, data: part });
      next[from] = next[from] + part.length >>> 0;
    }
  }
  return made;
}
const framed = (list, kind, isTagged) =>
  list.map(segment => forms.frameOf(segment, kind, isTagged));
const headed = (list, head) =>
  list.map(segment => Buffer.concat([Buffer.from(head, 'hex'), forms.packetOf(segment)]));
const moved = (list, from, to) => {
  const made = [...list];
  made.splice(to, 0, ...made.splice(from, 1));
  return made;
};
const talk = conversation(50);
const captures = {
  'a pcap file': forms.pcap(framed(talk)),
  'a pcap file, big endian': forms.pcap(framed(talk), { isLittle: false }),
  'a pcapng file': forms.pcapng(framed(talk)),
  'a capture of IPv6': forms.pcap(framed(talk, 6)),
  'a capture with VLAN tags': forms.pcap(framed(talk, 4, true)),
  'a capture of raw IP': forms.pcap(headed(talk, ''), { link: 101 }),
  'a capture of the loopback': forms.pcap(headed(talk, '02000000'), { link: 0 }),
  'a capture of Linux "any"': forms.pcap(headed(talk, '00'.repeat(14) + '0800'), { link: 113 }),
  'segments out of order': forms.pcap(framed(moved(talk, 2, 3))),
  'segments sent twice': forms.pcap(framed([...talk.slice(0, 4), talk[2], ...talk.slice(4)])),
  'a capture without its beginning': forms.pcap(framed(talk.slice(2))),
  'packets of tshark -x': forms.tsharkX(framed(talk)),
};
async function captured({ verdict, file }, page) {
  for (const [name, bytes] of Object.entries(captures)) {
    await page.call(seen.clear);
    await page.drop('received', [file('capture', bytes)]);
    await until(page, 10, seen.countOf, 'tr.exchange');
    const got = sidesOf(await page.call(seen.chunks)), rows = await page.call(seen.rows);
    verdict('read: ' + name, String(got) === String(bothSides) && rows.length === 2
      && rows[1][4] === 'answered Destroy', [got, rows, await page.call(seen.summary)]);
  }
  await page.call(seen.clear);
  await page.drop('sent', [file('capture', forms.pcap(framed(talk.filter((_, i) => i !== 3))))]);
  await until(page, 10, seen.countOf, 'tr.exchange');
  const left = await page.call(seen.left), rows = await page.call(seen.rows);
  verdict('a packet that is missing in a capture is said, and costs one row',
    left.includes('50 bytes before this packet are missing')
    && rows.some(row => row[4] === 'answered Destroy'), [left, rows]);
}

// Captures that are cut off anywhere, or have a changed byte, are read or said to be wrong.
async function odd({ verdict }, page) {
  for (const name of ['a pcap file', 'a pcapng file', 'a capture of IPv6']) {
    const wrong = await page.call(bytes => {
      const outcome = input => atOnce(readOrSay(readGiven(input))).failed || '';
      const isWrong = text => /memory|undefined|Offset|bounds|not a/.test(text), found = [];
      for (let at = 0; at < bytes.length; at += 7) {
        const changed = bytes.slice();
        changed[at] ^= 0xff;
        for (const input of [bytes.subarray(0, at), changed]) {
          if (isWrong(outcome(input))) found.push([at, outcome(input)]);
        }
      }
      return found;
    }, captures[name]);
    verdict('cut off or changed anywhere: ' + name, !wrong.length, wrong.slice(0, 3));
  }
}

async function inputs(harness, page) {
  await texts(harness, page);
  await names(harness, page);
  await damages(harness, page);
  await dumpDamage(harness, page);
  await records(harness, page);
  await captured(harness, page);
  await odd(harness, page);
  await page.call(seen.clear);
}
module.exports = { inputs, followed };
