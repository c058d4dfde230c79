// The bytes of a message beside its tree, with those of one item marked. The bytes of a value
// that is hidden are hidden here too.
const twoDigits = byte => byte.toString(16).padStart(2, '0').toUpperCase();
const shownChar = byte => (byte > 32 && byte < 127 ? String.fromCharCode(byte) : '.');
const HIDDEN = ['··', '·'];

function hiddenRanges(listing, from, to) {
  const found = [], { lines } = listing;
  for (let i = 0; i < lines.length; i++) {
    if (lines[i] === CLOSING || listing.shown.has(i)) continue;
    if (parseInt(lines[i], 10) >= to) break;
    if (parseInt(lines[i + 1], 10) <= from) continue; // a line that closes is no number
    const end = endOfItem(listing, i), line = partsOf(lines[i]);
    if (end > from && mayBeSecret(line)) found.push([line.at + HEAD, end]);
  }
  return found;
}
function bytesView(tree) {
  const { listing } = tree, lines = element('div', 'dump'), isNarrow = tree.clientWidth < 900;
  const made = element('div', isNarrow ? 'bytes narrow' : 'bytes');
  const state = { from: 0, marked: [0, 0], width: isNarrow ? 8 : 16 };
  const go = from => {
    state.from = Math.max(0, from - from % state.width);
    listing.redraw();
  };
  listing.redraw = () => drawDump(listing, state, lines, go);
  listing.mark = i => {
    state.marked = [partsOf(listing.lines[i]).at, endOfItem(listing, i)];
    const [from] = state.marked, isThere = from >= state.from && from < state.from + WINDOW;
    go(isThere ? state.from : from);
    lines.querySelector('mark')?.scrollIntoView({ block: 'nearest' });
  };
  listing.redraw();
  made.append(lines);
  made.tabIndex = 0; // it may scroll
  made.setAttribute('role', 'region');
  made.setAttribute('aria-label', 'Bytes of the message');
  return made;
}
function drawDump(listing, state, into, go) {
  const { from, width } = state, to = Math.min(from + WINDOW, listing.bytes.length);
  const hidden = hiddenRanges(listing, from, to), rows = [];
  for (let at = from; at < to; at += width) rows.push(dumpRow(listing, state, hidden, at));
  into.replaceChildren(...rows);
  if (from) into.prepend(button('earlier', () => go(from - WINDOW)));
  if (to < listing.bytes.length) {
    into.append(button('later, of ' + counted(listing.bytes.length, 'byte'), () => go(to)));
  }
}
function dumpRow(listing, { width, marked }, hidden, at) {
  const bytes = [...listing.bytes.subarray(at, at + width)];
  const isHidden = bytes.map((_, i) => hidden.some(([a, b]) => at + i >= a && at + i < b));
  const part = (from, to) => [
    bytes.slice(from, to).map((x, i) => (isHidden[from + i] ? HIDDEN[0] : twoDigits(x))).join(' '),
    bytes.slice(from, to).map((x, i) => (isHidden[from + i] ? HIDDEN[1] : shownChar(x))).join('')];
  const [a, b] = marked.map(place => Math.min(Math.max(place - at, 0), bytes.length));
  const cuts = [part(0, a), part(a, b), part(b, bytes.length)];
  const digits = element('span', 'digits'), chars = element('span', 'chars');
  cuts.forEach(([two, one], i) => {
    if (!one) return;
    digits.append(digits.hasChildNodes() ? ' ' : '', i === 1 ? element('mark', '', two) : two);
    chars.append(i === 1 ? element('mark', '', one) : one);
  });
  return element('div', 'line', '', element('span', 'at', at.toString(16).padStart(6, '0')),
    digits, chars);
}
