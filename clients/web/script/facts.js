// What a row of the table leads with: operations, what they are about, what the response says of
// itself, what the matched reading makes of the exchange, and the time.
const OPERATION = '42005C', STATUS = '42007F', REASON = '42007E', TIME = '420092';
const IDENTIFIER = '420094', OBJECT_TYPE = '420057', NAME_VALUE = '420055';
const PRIVATE_KEY = '420066', PUBLIC_KEY = '42006F'; // identifiers of the keys of a pair
const BATCH_ITEM = '42000F', PAYLOADS = ['420079', '42007C'];
const nameOf = value => value.slice(value.indexOf(' ') + 1);

// The facts of a message, from the lines of its first bytes, and words to search for.
function factsOf(bytes) {
  const lines = linesOf(bytes.subarray(0, PART)), path = [], words = new Set();
  const found = { ...NOTHING, operations: [], results: [], words };
  for (const text of lines) {
    if (text === CLOSING) path.pop();
    else {
      const line = partsOf(text);
      addFact(found, path, line, bytes);
      words.add(line.tag).add(line.name);
      if (line.value && !mayBeSecret(line)) words.add(line.value);
      if (line.kind === 'Structure') path.push(line.tag);
    }
  }
  return found;
}
function addFact(found, path, { at, tag, value }, bytes) {
  if (tag === OPERATION && path.at(-1) === BATCH_ITEM) found.operations.push(nameOf(value));
  if (tag === STATUS && path.at(-1) === BATCH_ITEM) found.results.push(nameOf(value));
  if (tag === REASON && path.at(-1) === BATCH_ITEM && found.results.length) {
    found.results.push(found.results.pop() + ': ' + nameOf(value));
  }
  if (tag === TIME && path.length === 2) found.time ||= dateAt(bytes, at);
  if (tag === NAME_VALUE) found.name ||= value;
  if (!PAYLOADS.includes(path[2]) || path.length !== 3) return;
  if (tag === IDENTIFIER) found.identifier ||= value;
  if (tag === PRIVATE_KEY) found.privateKey ||= value;
  if (tag === PUBLIC_KEY) found.publicKey ||= value;
  if (tag === OBJECT_TYPE) found.type ||= nameOf(value);
}
const NOTHING = { operations: [], results: [], identifier: '', privateKey: '', publicKey: '',
  type: '', name: '', time: '', words: [] };
const factsAt = message => (message?.bytes.length ? factsOf(message.bytes) : NOTHING);

// Operations of a batch are named once each, with how many there are.
function operationsOf(names) {
  const counts = new Map();
  for (const name of names) counts.set(name, (counts.get(name) || 0) + 1);
  return [...counts].map(([name, count]) => (count > 1 ? name + ' ×' + count : name)).join(', ');
}
// The identifiers of the keys of a pair, those that are there.
function pairOf({ privateKey, publicKey }) {
  return [privateKey && 'private ' + privateKey, publicKey && 'public ' + publicKey]
    .filter(Boolean).join(', ');
}
const objectOf = (sent, received) => pairOf(received) || sent.identifier || received.identifier
  || pairOf(sent) || sent.type || received.type || sent.name || received.name;
// The facts of a row, which are kept with it.
function rowFacts(row) {
  if (row.facts) return row.facts;
  const sent = factsAt(row.sent), received = factsAt(row.received), { call } = row.sent || {};
  const asked = sent.operations.length ? sent : received;
  row.facts = { operation: operationsOf(asked.operations) || (call ? call.name : ''),
    about: objectOf(sent, received) || (call ? call.about : ''), call: call ? call.words : '',
    time: received.time || sent.time, ...resultOf(row, received), verdict: verdictOf(row),
    words: [...new Set([...sent.words, ...received.words])].join('\n').toLowerCase() };
  return row.facts;
}
// What the response says of itself, in KMIP's own names, each once: the status of each of its batch
// items, with the reason where it has one. Before that what is wrong with the bytes of the row.
function resultOf(row, received) {
  const torn = SIDES.map(side => tornWords(row[side], side)).filter(Boolean);
  if (torn.length) return { result: torn.join(', '), mood: 'bad' };
  if (row.isPaired && !row.received) return { result: 'no response', mood: 'bad' };
  if (!row.received) return { result: '', mood: '' };
  const { results } = received, { bytes } = row.received;
  if (bytes.length <= PART && faultOf(bytes).why) return { result: 'not well formed', mood: 'bad' };
  const isGood = results.length && results.every(result => result === 'Success');
  const isBad = results.some(result => result.startsWith('OperationFailed'));
  const mood = isGood ? 'good' : isBad ? 'bad' : '';
  return { result: operationsOf(results) || 'no status', mood };
}
// What the matched reading makes of an exchange: the first line of the report on its two messages,
// without the number. None where a message is not whole, or has no bytes here.
function verdictOf(row) {
  const isTorn = SIDES.some(side => tornWords(row[side], side));
  if (!row.isPaired || row.sent?.call || isTorn) return '';
  const both = SIDES.map(side => row[side]?.bytes || NONE), guess = 65536 + both[0].length;
  const line = textFrom('web_report', both, guess + both[1].length).split('\n', 1)[0];
  return line.slice(line.indexOf(' ') + 1);
}
// What each verdict means, by its first words.
const VERDICTS = [['answered', 'it is the answer to this request, as the typed calls read it'],
  ['failed', 'the operation failed, for this reason'],
  ['unread request', 'the request is none that the typed calls make, so the response is not held '
    + 'to it; as with Encrypt, ReKey or a batch, this is no fault'],
  ['no request', 'there is a response, and no request'],
  ['no response', 'there is a request, and no response'],
  ['malformed response', 'the contents of the response are not well formed'],
  ['unread response', 'it is no response message that the typed calls read'],
  ['not one item', 'the response has not one batch item'],
  ['pending', 'the operation is not done yet'], ['undone', 'the operation was undone'],
  ['other operation', 'the response is to this operation, and not to the one that was asked'],
  ['no payload', 'the response says success, and has nothing with it']];
function meaningOf(verdict) {
  return VERDICTS.find(([words]) => verdict.startsWith(words))?.[1] || '';
}
function tornWords(message, side) {
  const name = side === 'sent' ? 'request' : 'response';
  if (message?.damaged) return name + ' left out';
  return message && !message.call && !message.isWhole ? name + ' not whole' : '';
}
