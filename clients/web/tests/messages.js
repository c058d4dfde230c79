'use strict';
// KMIP messages by the rules of KMIP 1.0, 9.1, written anew here, and a reader of them: what the
// page shows is held to it.
function word(size, number) {
  const digits = BigInt.asUintN(8 * size, BigInt(number)).toString(16);
  return Buffer.from(digits.padStart(2 * size, '0'), 'hex');
}

function item(tag, code, value) {
  const pads = (8 - value.length % 8) % 8;
  return Buffer.concat([word(3, tag), word(1, code), word(4, value.length), value,
    Buffer.alloc(pads)]);
}
const structure = (tag, ...items) => item(tag, 1, Buffer.concat(items));
const integer = (tag, number) => item(tag, 2, word(4, number));
const long = (tag, number) => item(tag, 3, word(8, number));
const big = (tag, hex) => item(tag, 4, Buffer.from(hex, 'hex'));
const enumeration = (tag, number) => item(tag, 5, word(4, number));
const boolean = (tag, flag) => item(tag, 6, word(8, flag ? 1 : 0));
const text = (tag, words) => item(tag, 7, Buffer.from(words, 'utf8'));
const bytes = (tag, value) => item(tag, 8, Buffer.from(value));
const date = (tag, seconds) => item(tag, 9, word(8, seconds));
const interval = (tag, seconds) => item(tag, 10, word(4, seconds));

const version = structure(0x420069, integer(0x42006A, 1), integer(0x42006B, 0));
const request = (operation, ...payload) => structure(0x420078,
  structure(0x420077, version, integer(0x42000D, 1)),
  structure(0x42000F, enumeration(0x42005C, operation), structure(0x420079, ...payload)));
const response = (...inner) => structure(0x42007B,
  structure(0x42007A, version, date(0x420092, 1764374400), integer(0x42000D, 1)),
  structure(0x42000F, ...inner));
const answered = (operation, ...payload) => response(enumeration(0x42005C, operation),
  enumeration(0x42007F, 0), structure(0x42007C, ...payload));
const failed = (operation, reason, words) => response(enumeration(0x42005C, operation),
  enumeration(0x42007F, 1), enumeration(0x42007E, reason), text(0x42007D, words));
const named = name => text(0x420094, name);
const key = material => structure(0x42008F, structure(0x420040, enumeration(0x420042, 1),
  structure(0x420045, bytes(0x420043, material)),
  enumeration(0x420028, 3), integer(0x42002A, 8 * material.length)));

// A message with each of the ten types, and texts that are hard to show.
const allTypes = structure(0x420078, integer(0x42000D, -5), long(0x42000D, -9007199254740993n),
  big(0x42000D, 'ff00000000000001'),
  enumeration(0x42005C, 10), enumeration(0x42005C, 0x8000BEEF), boolean(0x420007, true),
  text(0x420094, 'Schlüssel \\ \t <b>鍵</b>\n'), text(0x420094, ''),
  bytes(0x420043, Buffer.from('00ff10', 'hex')), date(0x420092, -1), date(0x420092, 1764374400),
  interval(0x420049, 4294967295), structure(0x420091), text(0x540001, 'of nobody'));

// Values that have names by the tables of KMIP 1.2, 9.1.3.2 and 9.1.3.3, and what is shown of them.
const USES = 'Sign Verify Encrypt Decrypt WrapKey UnwrapKey Export MACGenerate MACVerify DeriveKey '
  + 'ContentCommitmentNonRepudiation KeyAgreement CertificateSign CRLSign GenerateCryptogram '
  + 'ValidateCryptogram TranslateEncrypt TranslateDecrypt TranslateWrap TranslateUnwrap';
const attribute = (name, ...values) => structure(0x420008, text(0x42000A, name), ...values);
const under = [['Cryptographic Algorithm', enumeration(0x42000B, 3), '0x3 AES'],
  ['Object Type', enumeration(0x42000B, 4), '0x4 PrivateKey'],
  ['State', enumeration(0x42000B, 2), '0x2 Active'],
  ['Certificate Type', enumeration(0x42000B, 2), '0x2 PGP'],
  ['Digital Signature Algorithm', enumeration(0x42000B, 5),
    '0x5 SHA_256WithRSAEncryptionPKCS_1V1_5'],
  ['Cryptographic Usage Mask', integer(0x42000B, 12), '12 Encrypt Decrypt'],
  ['Cryptographic Usage Mask', integer(0x42000B, 0xFFFFF), '1048575 ' + USES],
  ['Cryptographic Length', integer(0x42000B, 12), '12'], ['x-own', enumeration(0x42000B, 3), '0x3'],
  ['State', enumeration(0x42000B, 0x80000001), '0x80000001']];
const attributes = structure(0x420078, ...under.map(([name, value]) => attribute(name, value)),
  attribute('State', integer(0x420009, 1), enumeration(0x42000B, 4)),
  structure(0x420008, enumeration(0x42000B, 3)), enumeration(0x42000B, 1),
  enumeration(0x420024, 1), integer(0x42002C, -2147483647), integer(0x42008E, 3));
const attributeValues = [...under.map(row => row[2]), '1', '0x4 Compromised', '0x3', '0x1',
  '0x1 UsernameAndPassword', '-2147483647 Sign 0x80000000', '3 OnLineStorage ArchivalStorage'];

function exchange(number, size) {
  const id = 'key-' + number;
  if (number % 7 === 3) return [request(10, named(id)), failed(10, 1, 'no such object')];
  if (number % 5 === 2) return [request(20, named(id)), answered(20, named(id))];
  return [request(10, named(id)), answered(10, enumeration(0x420057, 2), named(id),
    key(Buffer.alloc(size, number)))];
}
function capture(count, size) {
  const all = Array.from({ length: count }, (_, i) => exchange(i + 1, size));
  return { sent: Buffer.concat(all.map(pair => pair[0])),
    received: Buffer.concat(all.map(pair => pair[1])) };
}
const nested = depth => depth ? structure(0x420091, nested(depth - 1)) : Buffer.alloc(0);
function changed(from, at, value) {
  const made = Buffer.from(from);
  made[at] = value;
  return made;
}

// Each kind of fault: the bytes, where they stop being items, and words of the reason.
const head = Buffer.from(request(10, named('a')));
const faults = {
  'a type that is none of the ten': [changed(head, 11, 11), 8, 'none of the ten'],
  'a length past the end': [changed(text(0x420094, 'abc'), 6, 1), 0, 'leads past'],
  'pads cut off': [text(0x420094, 'abc').subarray(0, 12), 0, 'pads'],
  'no length of the type': [Buffer.concat([integer(1, 1), item(0x42000D, 2, Buffer.alloc(8))]),
    16, 'this length'],
  'a length of a Long Integer': [item(0x42000D, 3, Buffer.alloc(4)), 0, 'this length'],
  'a Boolean of 2': [item(0x420007, 6, word(8, 2)), 0, 'neither 0 nor 1'],
  'a text that is no UTF-8': [item(0x420094, 7, Buffer.from('c3', 'hex')), 0, 'UTF-8'],
  'level 65': [nested(65), 512, 'level 65'],
  'a head cut off': [head.subarray(0, 60), 56, 'fewer than 8 bytes'],
  'cut off at the end of an item': [head.subarray(0, 56), 56, 'goes on'],
  'an item past the end of its structure': [changed(structure(0x420091,
    text(0x420094, 'abcdefgh')), 15, 9), 8, 'leads past'],
};

// The items of well-formed bytes, as lines of the listing.
const NAMES = ['', 'Structure', 'Integer', 'LongInteger', 'BigInteger', 'Enumeration', 'Boolean',
  'TextString', 'ByteString', 'DateTime', 'Interval'];
function shown(code, value) {
  const upper = number => number.toString(16).toUpperCase();
  const signed = () => String(value.length === 4 ? value.readInt32BE() : value.readBigInt64BE());
  const escaped = () => value.toString('utf8').replace(/[\x00-\x1f\\\x7f]/g,
    char => '\\' + upper(char.charCodeAt(0)).padStart(2, '0'));
  const hex = () => value.toString('hex').toUpperCase(), none = () => '';
  const number = () => '0x' + upper(value.readUInt32BE());
  const truth = () => String(value.readBigInt64BE() === 1n);
  const interval = () => String(value.readUInt32BE());
  return [none, none, signed, signed, hex, number, truth, escaped, hex, signed, interval][code]();
}
function listed(all, from = 0) {
  const lines = [];
  for (let at = 0; at < all.length;) {
    const length = all.readUInt32BE(at + 4), code = all[at + 3];
    const value = all.subarray(at + 8, at + 8 + length);
    lines.push([from + at, all.readUIntBE(at, 3).toString(16).toUpperCase(), NAMES[code],
      shown(code, value)].join('\t'));
    if (code === 1) lines.push(...listed(value, from + at + 8), ']');
    at += 8 + Math.ceil(length / 8) * 8;
  }
  return lines;
}
module.exports = { request, response, answered, failed, named, key, allTypes, attribute, attributes,
  attributeValues, capture, exchange, faults, listed, structure, integer, text, bytes,
  enumeration };
