// The tree of a message, and its bytes beside it.
const MOST = 300; // items of a structure that are drawn at once
const OPENED = 3000; // items that "open all" opens at once
const WINDOW = 1024; // bytes that are drawn at once

function rowParts(listing, i) {
  const line = partsOf(listing.lines[i]), { at, tag, name, kind, value } = line;
  const made = [element('span', 'at', String(at)), element('span', 'name', name), ' ',
    element('span', 'kind', tag + ' ' + kind), ' '];
  if (kind === 'Structure') return made;
  const changed = isShown => {
    if (isShown) listing.shown.add(i); else listing.shown.delete(i);
    listing.redraw?.();
  };
  if (kind === 'TextString') {
    return [...made, '"', valueOf(value, mayBeSecret(line), changed), '"'];
  }
  const text = kind === 'DateTime' ? value + '  ' + dateAt(listing.bytes, at) : value;
  return [...made, valueOf(text, mayBeSecret(line), changed)];
}
// The items of a structure, those of the message for -1, from the line `from` on.
function draw(into, listing, owner, from) {
  const { lines, ends } = listing, goOn = at => draw(into, listing, owner, at);
  const end = () => (owner < 0 ? lines.length : ends[owner] ?? lines.length);
  const isOpen = () => !listing.isDone && (owner < 0 || ends[owner] === undefined);
  for (let i = from, count = 0; ; i = ends[i]) {
    if (i >= end()) return waitFor(listing, isOpen, () => end() > i, () => goOn(i));
    if (lines[i] === CLOSING) return;
    if (count++ === MOST) {
      into.append(moreButton(into, listing, owner, i));
      return;
    }
    into.append(rowOfTree(listing, i));
    if (ends[i] === undefined) {
      return waitFor(listing, isOpen, () => ends[i] !== undefined, () => goOn(ends[i]));
    }
  }
}
// Goes on where there is more of a message that is still being listed.
function waitFor(listing, isOpen, isThere, run) {
  const attempt = () => {
    if (!isThere()) return isOpen();
    run();
    return false;
  };
  if (isOpen()) listing.waiting.push(attempt);
}
function moreButton(into, listing, owner, from) {
  return button('more', made => {
    made.remove();
    draw(into, listing, owner, from);
  }, 'more');
}
function rowOfTree(listing, i) {
  if (!isStructure(listing.lines[i])) {
    const row = element('div', 'row', '', ...rowParts(listing, i));
    row.tabIndex = -1; // the arrows go there
    row.line = i;
    return row;
  }
  const inside = element('div'), summary = element('summary', '', '', ...rowParts(listing, i));
  const details = element('details', '', '', summary, inside);
  summary.line = i;
  summary.tabIndex = i ? -1 : 0;
  details.fill = () => {
    if (details.isDrawn) return;
    details.isDrawn = true;
    draw(inside, listing, i, i + 1);
  };
  details.addEventListener('toggle', details.fill);
  if (listing.isOpening || !i) {
    details.open = true;
    details.fill();
  }
  return details;
}
function treeOf(bytes, end) {
  const listing = newListing(bytes, end), made = element('div', 'tree');
  listNext(listing);
  if (!listing.lines.length) return null;
  listing.isOpening = listing.lines.length < 2000 && listing.isDone;
  draw(made, listing, -1, 0);
  made.listing = listing;
  for (const name of ['click', 'focusin']) {
    made.addEventListener(name, event => {
      const row = event.target.closest('.row, summary');
      if (!row || !made.contains(row)) return;
      made.querySelector('[tabindex="0"]')?.setAttribute('tabindex', '-1');
      row.tabIndex = 0; // the one place where Tab enters the tree
      listing.mark?.(row.line);
    });
  }
  made.addEventListener('keydown', event => moveFocus(made, event));
  return made;
}
// The arrows, Home and End go from row to row of what is open; Right opens a structure, and Left
// closes it, or goes to the one around an item.
const STEPS = { ArrowDown: 1, ArrowUp: -1, Home: -Infinity, End: Infinity };
function moveFocus(tree, event) {
  const row = event.target.closest('.row, summary');
  if (!row || event.target.closest('button') || event.altKey || event.ctrlKey) return;
  const details = row.localName === 'summary' ? row.parentNode : null;
  let next = null;
  if (event.key in STEPS) next = rowAfter(tree, row, STEPS[event.key]);
  else if (event.key === 'ArrowRight' && details) details.open = true;
  else if (event.key !== 'ArrowLeft') return;
  else if (details?.open) details.open = false;
  else next = row.parentNode.closest('.tree details > div')?.parentNode.firstChild;
  event.preventDefault();
  next?.focus();
}
function rowAfter(tree, row, step) {
  const rows = [...tree.querySelectorAll('.row, summary')].filter(other => other.checkVisibility());
  const at = rows.indexOf(row) + step;
  return rows[Math.min(Math.max(at, 0), rows.length - 1)];
}
// Lists the rest of a long message while the page stays in use.
async function listRest(listing, made) {
  if (listing.isDone) return;
  const line = element('p', 'progress');
  made.before(line);
  const step = () => {
    const isMore = listNext(listing);
    line.textContent = 'listed ' + Math.floor(100 * listing.at / listing.end) + ' % of the message';
    return isMore;
  };
  try {
    await inSlices(listing, step);
    line.remove();
  } catch (error) {
    line.className = 'bad error';
    line.textContent = 'The rest of the message is not listed: ' + reasonOf(error);
  }
}

// Opens closed structures and draws what "more" stands for, as many items as are opened at once.
function openMore(tree, made, owner) {
  let left = OPENED;
  const step = () => {
    const next = tree.querySelector('details:not([open]), .more');
    if (!next || left <= 0) {
      labelled(made, next ? openLabel(tree) : 'Open all', owner);
      return false;
    }
    left -= openOne(next);
    return true;
  };
  inSlices(made, step).catch(error => { made.textContent = reasonOf(error); });
}
function openOne(next) {
  const inside = next.localName === 'details' ? next.lastChild : next.parentNode;
  const before = inside.childElementCount;
  if (next.localName === 'details') {
    next.open = true;
    next.fill();
  } else next.click();
  return Math.max(1, inside.childElementCount - before);
}
const openLabel = tree => (tree.listing.isDone && tree.listing.lines.length <= OPENED ? 'Open all'
  : 'Open ' + grouped(OPENED) + ' more');
function closeAll(tree) {
  for (const details of tree.querySelectorAll('details')) details.open = false;
}
