// The table of exchanges, or of the messages of one side.
const ROWS = 100; // that are drawn at once
const COLUMNS_OF = ['#', 'Operation', 'Object', 'Result', 'Matched reading', 'Time'];
const classOf = head => head.toLowerCase().replace('#', 'number').split(' ')[0];
const table = { rows: [], opened: new Map(), words: '', body: null };

// With more rows than before, what was opened stays open, and what is searched for stays too.
function drawTable(rows, isRest) {
  const opened = isRest ? table.opened : new Map(), words = isRest ? table.words : '';
  Object.assign(table, { rows, opened, words, body: element('tbody') });
  const heads = COLUMNS_OF.map(name => {
    const made = element('th', '', name);
    made.scope = 'col';
    return roleOf(made, 'columnheader');
  });
  const head = roleOf(element('tr', '', '', ...heads), 'row');
  const made = element('table', '', '', element('thead', '', '', head), table.body);
  for (const group of [made.tHead, table.body]) roleOf(group, 'rowgroup');
  $('out').append(searchBar(words), element('p', 'found'), roleOf(made, 'table'));
  find(words);
}
function roleOf(made, role) { // which the styles of narrow screens would take away
  made.setAttribute('role', role);
  return made;
}
function searchBar(words) {
  const made = element('input');
  made.type = 'search';
  made.value = words;
  made.placeholder = 'search: #12, Get, key-1, OperationFailed, a tag, a value';
  made.setAttribute('aria-label', 'Search the rows');
  made.oninput = () => find(made.value);
  return made;
}

// Draws the rows that have all of the words: as #12 its number, as any other word a part of what
// the row shows, of names and numbers of tags, or of a value that is not hidden.
function find(text) {
  const words = text.toLowerCase().split(/\s+/).filter(Boolean);
  table.words = text;
  const state = { words, next: 0, found: 0, room: ROWS };
  table.body.replaceChildren();
  run(state);
}
function run(state) {
  said(state);
  rowsInSlices(state).catch(error => {
    $('out').querySelector('.found').textContent = reasonOf(error);
  });
}
function rowsInSlices(state) {
  return inSlices(table, () => {
    const isMore = state.next < table.rows.length && state.room > 0;
    if (isMore) lookAt(state);
    if (isMore && state.room > 0 && state.next < table.rows.length) {
      if (state.next % 500 === 0) said(state);
      return true;
    }
    said(state, true);
    return false;
  });
}
function lookAt(state) {
  const i = state.next++;
  if (!hasWords(i, state.words)) return;
  state.found++;
  state.room--;
  table.body.append(...rowOfTable(i));
}
function hasWords(i, words) {
  if (!words.length) return true;
  const { words: inside, ...facts } = rowFacts(table.rows[i]);
  const { operation, about, result, verdict, time, call } = facts;
  const shown = ['#' + (i + 1), operation, about, result, verdict, time, call].join('\n')
    .toLowerCase();
  return words.every(word => (/^#\d+$/.test(word) ? word === '#' + (i + 1)
    : shown.includes(word) || inside.includes(word)));
}
function said(state, isOver) {
  const line = $('out').querySelector('.found'), left = table.rows.length - state.next;
  const looked = ', looked at ' + grouped(state.next) + ' of ' + grouped(table.rows.length);
  line.textContent = !state.words.length ? ''
    : !isOver ? 'searching' + looked
      : !state.found ? 'Nothing found.' : counted(state.found, 'row') + ' found'
        + (left ? looked : '');
  if (!isOver || !left) return;
  const label = 'more: ' + grouped(left) + ' are left';
  const made = button(label, () => {
    made.closest('tr').remove();
    state.room = ROWS;
    run(state);
  });
  const cell = roleOf(element('td', '', '', made), 'cell');
  cell.colSpan = COLUMNS_OF.length;
  table.body.append(roleOf(element('tr', 'rest', '', cell), 'row'));
}

// A row, and below it what was opened of it.
function rowOfTable(i) {
  const { operation, about, result, mood, verdict, time } = rowFacts(table.rows[i]);
  const made = roleOf(element('tr', 'exchange'), 'row'), opened = table.opened.get(i);
  const open = button('#' + (i + 1), () => toggle(i, made, open));
  open.setAttribute('aria-expanded', String(Boolean(opened)));
  open.setAttribute('aria-label', ['#' + (i + 1), operation, about, result].join(' '));
  const cells = [open, element('b', '', operation), textOf(about), element('span', mood, result),
    element('span', 'verdict', verdict), element('span', 'time', time)];
  made.append(...cells.map((inside, at) =>
    roleOf(element('td', classOf(COLUMNS_OF[at]), '', inside), 'cell')));
  made.onclick = () => {
    if (getSelection().isCollapsed) toggle(i, made, open);
  };
  return opened ? [made, opened] : [made];
}
function toggle(i, made, open) {
  const opened = table.opened.get(i);
  if (opened) {
    opened.remove();
    table.opened.delete(i);
  } else {
    const shown = openedRow(table.rows[i], '#' + (i + 1));
    table.opened.set(i, shown);
    made.after(shown);
  }
  open.setAttribute('aria-expanded', String(!opened));
}
function openedRow(row, number) {
  const cell = roleOf(element('td'), 'cell'), { verdict } = rowFacts(row);
  cell.colSpan = COLUMNS_OF.length;
  if (verdict) {
    const text = 'Matched reading: ' + verdict + ': ' + meaningOf(verdict) + '.';
    cell.append(element('p', 'dim meaning', text));
  }
  for (const side of SIDES) if (row.isPaired || row[side]) cell.append(drawSide(row, side, number));
  return roleOf(element('tr', 'opened', '', cell), 'row');
}
