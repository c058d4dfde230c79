// A message: what it is, its tree, its bytes, and what is copied of it.

// KMIP's JSON as KMIP's XML (Additional Message Encodings): the same names, types and values.
const OFFSET = /\{"offset":\d+,/g;
const withoutOffsets = json => json.replace(OFFSET, '{');
const XML_OF = { '&': '&amp;', '<': '&lt;', '>': '&gt;', '"': '&quot;', '\t': '&#9;',
  '\n': '&#10;', '\r': '&#13;' };
function attribute(name, value) {
  const text = String(value);
  if (/[\0-\x08\x0b\x0c\x0e-\x1f\ufffe\uffff]/.test(text)) {
    throw new Error('XML cannot hold a control character of this message.');
  }
  return ' ' + name + '="' + text.replace(/[&<>"\t\n\r]/g, char => XML_OF[char]) + '"';
}
function xmlValue(type, value) {
  if (type === 'BigInteger') return value.replace(/^0x/, '');
  // The names of a mask.
  if (type === 'Integer') return String(value).replaceAll('|', ' ');
  return type === 'LongInteger' ? String(BigInt.asIntN(64, BigInt(value))) : value;
}
function xmlOf({ tag, type, value }, indent = '') {
  const isNumber = tag.startsWith('0x'), name = isNumber ? 'TTLV' : tag;
  const head = indent + '<' + name + (isNumber ? attribute('tag', tag) : '');
  if (type) {
    return head + attribute('type', type) + attribute('value', xmlValue(type, value)) + '/>\n';
  }
  const inside = value.map(item => xmlOf(item, indent + '  ')).join('');
  return inside ? head + '>\n' + inside + indent + '</' + name + '>\n' : head + '/>\n';
}
const jsonOf = bytes => textFrom('web_decode', [bytes], 65536 + 4 * bytes.length);
const skeletonOf = bytes => textFrom('web_skeleton', [bytes], 65536 + (bytes.length / 2 | 0));
function hexText(bytes) {
  let text = '';
  for (let at = 0; at < bytes.length; at += BLOCK) {
    text += Array.from(bytes.subarray(at, at + BLOCK), twoDigits).join('');
  }
  return text;
}

// What a button shows, and its whole name: which message it is of, since each has such buttons.
function labelled(made, label, owner) {
  made.textContent = label;
  made.setAttribute('aria-label', owner ? label + ', ' + owner : label);
  return made;
}
// A button that copies what it computes when it is pressed.
function copyButton(label, owner, compute, cls) {
  return labelled(button(label, async made => {
    const say = text => labelled(made, text, label + ', ' + owner);
    try {
      await navigator.clipboard.writeText(compute());
      say('copied');
    } catch (error) {
      say(error instanceof DOMException ? 'the browser refused' : reasonOf(error));
    }
    setTimeout(() => labelled(made, label, owner), 1500);
  }, cls), label, owner);
}
const reasonOf = error => (error instanceof RangeError ? REFUSED : String(error.message || error));
function saveButton(name, bytes, owner) {
  return labelled(button('Save', () => {
    const link = element('a'), address = URL.createObjectURL(new Blob([bytes]));
    link.href = address;
    link.download = name;
    link.click();
    setTimeout(() => URL.revokeObjectURL(address), 60000);
  }, 'save'), 'Save', owner);
}
function copyBar(message, owner, isItem) {
  const { bytes } = message, add = (...words) => bar.append(copyButton(...words));
  const bar = element('div', 'bar');
  add('Copy skeleton', owner, () => skeletonOf(bytes), 'copy');
  add('Copy hex', owner, () => hexText(bytes), 'copy-hex');
  if (isItem) {
    add('Copy JSON', owner, () => withoutOffsets(jsonOf(bytes)), 'copy-json');
    add('Copy XML', owner, () => xmlOf(JSON.parse(withoutOffsets(jsonOf(bytes)))), 'copy-xml');
  }
  bar.append(element('small', '', isItem ? 'all but the skeleton with all values'
    : 'hex with all values'));
  bar.append(saveButton('kmip-' + message.side + '-' + message.from + '.bin', bytes, owner));
  return bar;
}
// The JSON with offsets. A character that turns the direction of a text round is escaped.
const TURNS = /[\u061c\u200e\u200f\u202a-\u202e\u2066-\u2069]/g;
const escapedTurn = char => '\\u' + char.charCodeAt(0).toString(16).toUpperCase().padStart(4, '0');
function jsonFold(bytes) {
  const inside = element('pre');
  const made = element('details', 'json', '',
    element('summary', '', 'JSON with offsets, and with all values'), inside);
  made.addEventListener('toggle', () => {
    if (inside.firstChild) return;
    const lines = jsonOf(bytes).replace(OFFSET, (offset, at) => (at ? '\n' : '') + offset);
    inside.append(textOf(lines.replace(TURNS, escapedTurn)));
  });
  return made;
}
function viewBar(tree, sides, owner) {
  const toggle = button('Bytes', made => {
    const isShown = made.getAttribute('aria-pressed') === 'true';
    made.setAttribute('aria-pressed', String(!isShown));
    sides.classList.toggle('two', !isShown);
    if (isShown) sides.lastChild.remove();
    else sides.append(bytesView(tree));
  }, 'show-bytes');
  toggle.setAttribute('aria-pressed', 'false');
  const open = button(openLabel(tree), made => openMore(tree, made, owner), 'open-all');
  const shut = button('Close all', () => closeAll(tree));
  for (const made of [toggle, open, shut]) labelled(made, made.textContent, owner);
  return element('div', 'bar', '', open, shut, toggle, element('small', '',
    'Select an item, or go to it by the arrow keys, to mark its bytes.'));
}
// A message, or bytes that are none: its skeleton, its tree, and where it stops being items.
function drawMessage(message, owner) {
  const { bytes } = message, fault = faultOf(bytes), tree = treeOf(bytes, fault.at);
  const isOne = message.isWhole || (tree && tree.listing.ends[0] === tree.listing.lines.length);
  const isItem = !fault.why && isOne;
  const made = element('div', 'message', '', titleBar(message),
    copyBar(message, owner, isItem));
  made.append(drawSkeleton(bytes));
  if (tree) {
    const sides = element('div', 'sides', '', tree);
    tree.setAttribute('role', 'group');
    tree.setAttribute('aria-label', 'Items, ' + owner);
    made.append(viewBar(tree, sides, owner), sides);
    listRest(tree.listing, sides);
  }
  if (isItem) made.append(jsonFold(bytes));
  if (fault.why) {
    made.append(element('p', 'bad fault', 'No item at ' + fault.at + ': ' + fault.why));
  }
  return made;
}
function titleBar({ side, bytes, from, line, unit, isWhole }) {
  const where = line > 1 ? ', ' + unit + ' ' + line : '';
  const place = 'bytes ' + from + ' to ' + (from + bytes.length) + where;
  return element('div', 'bar', '', element('h2', '', side === 'sent' ? 'Sent' : 'Received'),
    element('small', '', (isWhole ? '' : 'no whole message: ') + place));
}
// Of a long message when the rest is drawn.
function drawSkeleton(bytes) {
  const made = element('pre', 'skeleton');
  const fill = () => made.append(textOf(skeletonOf(bytes)));
  if (bytes.length > PART) setTimeout(fill, 0);
  else fill();
  return made;
}
// What a row has at a side: a message, or why there is none.
function drawSide(row, side, number) {
  const message = row[side], name = side === 'sent' ? 'Sent' : 'Received';
  if (!message) return element('p', 'dim', 'Nothing was ' + side + '.');
  if (message.call) {
    const why = ': the record has no bytes of the call ';
    return element('p', 'dim', name + why + message.call.words);
  }
  if (message.damaged) {
    const place = name + ', ' + message.unit + ' ' + message.line;
    return element('p', 'bad', place + ', is left out: ' + message.damaged + '.');
  }
  try {
    return drawMessage(message, side + ' ' + number);
  } catch (error) {
    return element('p', 'bad error', name + ': ' + reasonOf(error));
  }
}
