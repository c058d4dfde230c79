'use strict';
// The table, the search, messages and what is copied of them, narrow screens, the keyboard, and
// what assistive programs are told.
const messages = require('./messages.js'), { hexOf } = require('./forms.js');
const { until } = require('./driver.js'), { seen } = require('./harness.js');

const { sent, received } = messages.capture(40, 32);
const idOf = row => row[2];

async function tables({ verdict }, page) {
  await page.call(seen.show, sent, received);
  const rows = await page.call(seen.rows);
  verdict('no skeleton is there before a row is opened',
    await page.call(seen.countOf, '.skeleton') === 0);
  verdict('a row leads with operation, identifier, result, verdict and time', String(rows[2])
    === '#3,Get,key-3,OperationFailed: ItemNotFound,failed ItemNotFound,2025-11-29T00:00:00+00:00',
      rows[2]);
  const heads = await page.call(() => [...document.querySelectorAll('th[scope=col]')]
    .map(head => head.textContent));
  verdict('columns have headers', String(heads)
    === '#,Operation,Object,Result,Matched reading,Time', heads);
  await page.call(seen.show, null, received);
  const alone = await page.call(seen.rows);
  verdict('one side alone has operations, identifiers and statuses', alone.length === 40
    && String(alone[0].slice(1, 5)) === 'Get,key-1,Success,'
    && String(alone[2].slice(1, 5)) === 'Get,,OperationFailed: ItemNotFound,', alone.slice(0, 3));
  await page.call(seen.show, sent, null);
  const asked = await page.call(seen.rows);
  verdict('so has the other', String(asked[1].slice(0, 3)) === '#2,Destroy,key-2', asked[1]);
  const batch = messages.structure(0x420078, messages.structure(0x42000F,
    messages.enumeration(0x42005C, 10)), messages.structure(0x42000F,
      messages.enumeration(0x42005C, 20)),
  messages.structure(0x42000F, messages.enumeration(0x42005C, 10)));
  await page.call(seen.show, batch, null);
  const [several] = await page.call(seen.rows);
  verdict('a batch names its operations', several[1] === 'Get ×2, Destroy', several);
}

const search = words => {
  const field = document.querySelector('input[type=search]');
  field.value = words;
  field.oninput();
};
const found = () => document.querySelector('.found').textContent;
const searches = {
  '#12': rows => rows.length === 1 && rows[0][0] === '#12',
  'KEY-12': rows => rows.length === 1 && idOf(rows[0]) === 'key-12',
  'destroy': rows => rows.length > 1 && rows.every(row => row[1] === 'Destroy'),
  'get notfound': rows => rows.length > 1 && rows.every(row => row[4] === 'failed ItemNotFound'),
  'operationfailed': rows => rows.length > 1
    && rows.every(row => row[3] === 'OperationFailed: ItemNotFound'),
  '42008f': rows => rows.length > 1 && rows.every(row => row[4] === 'answered Get'),
  'key block aes': rows => rows.length > 1 && rows.every(row => row[4] === 'answered Get'),
  'no such object': rows => rows.length > 1 && rows.every(row => row[4] === 'failed ItemNotFound'),
};
async function searched({ verdict }, page) {
  await page.call(seen.show, sent, received);
  for (const [words, isRight] of Object.entries(searches)) {
    await page.call(search, words);
    const rows = await page.call(seen.rows);
    verdict('search: ' + words, isRight(rows), rows.slice(0, 3));
  }
  await page.call(search, '1616161616161616');
  const hidden = await page.call(seen.rows);
  verdict('a value that is hidden is not found', hidden.length === 0, hidden);
  verdict('and nothing found is said', await page.call(found) === 'Nothing found.',
    await page.call(found));
  await page.call(search, '#5');
  await page.call(seen.rows);
  await page.call(seen.click, 'tr.exchange');
  for (const words of ['key-9', '', '#5']) {
    await page.call(search, words);
    await page.call(seen.rows);
  }
  verdict('a row that was opened stays open', await page.call(seen.countOf,
    'tr.opened .message') === 2);
}

// What is copied, since the clipboard of the system may be another's: the text that is handed on.
function keepCopies() {
  window.copies = [];
  navigator.clipboard.writeText = async text => { window.copies.push(text); };
}
const lastCopy = () => window.copies.at(-1);
async function copied(page, selector) {
  await page.call(selected => {
    window.copies = [];
    document.querySelector(selected).click();
  }, selector);
  await until(page, 10, () => window.copies.length > 0);
  return page.call(lastCopy);
}
const XML = `<RequestMessage>
  <BatchCount type="Integer" value="-5"/>
  <BatchCount type="LongInteger" value="-9007199254740993"/>
  <BatchCount type="BigInteger" value="FF00000000000001"/>
  <Operation type="Enumeration" value="Get"/>
  <Operation type="Enumeration" value="0x8000BEEF"/>
  <AsynchronousIndicator type="Boolean" value="true"/>
  <UniqueIdentifier type="TextString" value="Schlüssel \\ &#9; &lt;b&gt;鍵&lt;/b&gt;&#10;"/>
  <UniqueIdentifier type="TextString" value=""/>
  <KeyMaterial type="ByteString" value="00FF10"/>
  <TimeStamp type="DateTime" value="1969-12-31T23:59:59+00:00"/>
  <TimeStamp type="DateTime" value="2025-11-29T00:00:00+00:00"/>
  <LeaseTime type="Interval" value="4294967295"/>
  <TemplateAttribute/>
  <TTLV tag="0x540001" type="TextString" value="of nobody"/>
</RequestMessage>
`;
async function copies({ verdict, native, file }, page) {
  const bytes = messages.allTypes;
  await page.call(seen.show, bytes, null);
  await page.call(seen.rows);
  await page.call(keepCopies);
  const at = file('all', bytes), json = native('web_decode', at);
  const withoutOffset = (name, value) => (name === 'offset' ? undefined : value);
  const plain = JSON.stringify(JSON.parse(json, withoutOffset));
  const want = { '.copy': native('web_skeleton', at), '.copy-hex': hexOf(bytes).toUpperCase(),
    '.copy-json': plain, '.copy-xml': XML };
  for (const [selector, text] of Object.entries(want)) {
    const got = await copied(page, selector);
    verdict('copied: ' + selector, got === text, got);
  }
  const isParsed = await page.call(text => new DOMParser().parseFromString(text, 'text/xml')
    .querySelector('UniqueIdentifier').getAttribute('value'), XML);
  verdict('the XML has the text as it was', isParsed === 'Schlüssel \\ \t <b>鍵</b>\n', isParsed);
  await page.call(() => { delete navigator.clipboard.writeText; });
  await saved({ verdict }, page, bytes);
}
async function saved({ verdict }, page, bytes) {
  await page.call(() => {
    window.blobs = [];
    const made = URL.createObjectURL;
    URL.createObjectURL = blob => {
      window.blobs.push(blob);
      return made.call(URL, blob);
    };
    HTMLAnchorElement.prototype.click = function () { window.savedAs = this.download; };
    document.querySelector('.save').click();
    delete HTMLAnchorElement.prototype.click;
    URL.createObjectURL = made;
  });
  const got = await page.call(async () => [window.savedAs,
    btoa(String.fromCharCode(...new Uint8Array(await window.blobs[0].arrayBuffer())))]);
  verdict('a message is saved as its bytes',
    got[0] === 'kmip-sent-0.bin' && got[1] === bytes.toString('base64'), got);
}
async function shown({ verdict }, page) {
  await page.call(seen.show, messages.allTypes, null);
  await page.call(seen.rows);
  await page.call(() => { document.querySelector('.json').open = true; });
  await until(page, 10, () => document.querySelector('.json pre').textContent !== '');
  const lines = (await page.call(seen.text, '.json pre')).split('\n');
  verdict('the JSON is shown, an item a line', lines.length === 15
    && lines.every(line => line.startsWith('{"offset":'))
    && lines[7].includes('<b>鍵</b>'), lines);
}

async function secrets({ verdict }, page) {
  const credential = messages.structure(0x420025, messages.text(0x420099, 'user'),
    messages.text(0x4200A1, 'hunter2'));
  await page.call(seen.show, credential, null);
  await page.call(seen.rows);
  const text = await page.call(seen.shown);
  verdict('a password is hidden', text.includes('user') && text.includes('Password')
    && !text.includes('hunter2'), text);
  await page.call(seen.show, sent, received);
  await page.call(seen.rows);
  await page.call(seen.click, 'tr.exchange');
  const before = await page.call(seen.shown);
  verdict('key material is hidden', await page.call(seen.countOf, '.secret') === 1
    && !before.includes('01010101'), before.slice(0, 300));
  await page.call(seen.focus, '.secret');
  await page.press('Enter');
  const isShown = (await page.call(seen.shown)).includes('01010101');
  const isFocused = () => document.activeElement === document.querySelector('.secret');
  verdict('it is shown where it is asked for, and the focus stays', isShown
    && await page.call(isFocused));
  await page.press('Enter');
  verdict('and it is hidden again, and the focus stays',
    !(await page.call(seen.shown)).includes('01010101') && await page.call(isFocused));
}

// A structure and an enumeration whose names have the word are no secrets: the value inside is one.
async function secretData({ verdict }, page) {
  const object = messages.structure(0x420085, messages.enumeration(0x420086, 1),
    messages.structure(0x420040, messages.bytes(0x420043, Buffer.alloc(8, 7))));
  await page.call(seen.show, null, messages.answered(10, messages.named('s'), object));
  await page.call(seen.rows);
  await page.call(seen.click, '.show-bytes');
  const digits = () => [...document.querySelectorAll('.digits')].map(row => row.textContent)
    .join(' ');
  const text = await page.call(seen.text, '.tree'), before = await page.call(digits);
  await page.call(seen.click, '.secret');
  const after = await page.call(digits), want = Buffer.from(object).toString('hex').toUpperCase()
    .replace(/(..)(?=.)/g, '$1 ');
  verdict('of Secret Data the key material alone is hidden', text.includes('0x1 Password')
    && before.includes(want.replace(/(?:07 ){7}07/, '·· '.repeat(8).trim()))
    && after.includes(want), [text, before, want]);
}
// "Open all" of a message that is not drawn open, and has more than is drawn at once.
async function allOpened({ verdict }, page) {
  const { attribute, structure, integer } = messages;
  const many = structure(0x420078, ...Array.from({ length: 600 }, (_, i) =>
    attribute('Cryptographic Usage Mask', integer(0x42000B, i))));
  const counts = () => [document.querySelectorAll('.tree .row').length,
    document.querySelectorAll('.tree details:not([open]), .more').length];
  await page.call(seen.show, many, null);
  await page.call(seen.rows);
  const label = await page.call(seen.text, '.open-all'), before = await page.call(counts);
  await page.call(seen.click, '.open-all');
  await until(page, 60, () => begun.size === 0);
  const after = await page.call(counts);
  verdict('"Open all" opens all', label === 'Open all' && before[1] > 300
    && String(after) === '1200,0', [label, before, after]);
  const last = await page.call(() => [...document.querySelectorAll('.row')].at(-1).textContent);
  verdict('a mask under Attribute Value has its names in the tree', last.endsWith('Attribute Value '
    + '42000B Integer 599 Sign Verify Encrypt WrapKey Export DeriveKey'), last);
}

// The bytes beside the tree: those of the item that is chosen are marked, and hidden ones are dots.
async function bytesBeside({ verdict }, page) {
  await page.call(seen.show, null, messages.exchange(1, 32)[1]);
  await page.call(seen.rows);
  await page.call(seen.click, '.show-bytes');
  const marked = name => {
    const row = [...document.querySelectorAll('.row, summary')]
      .find(item => item.querySelector('.name')?.textContent === name);
    row.dispatchEvent(new MouseEvent('click', { bubbles: true, cancelable: true }));
    return [...document.querySelectorAll('.digits mark')].map(mark => mark.textContent).join(' ');
  };
  const item = await page.call(marked, 'Unique Identifier');
  verdict('the bytes of an item are marked',
    item === '42 00 94 07 00 00 00 05 6B 65 79 2D 31 00 00 00', item);
  const secret = await page.call(marked, 'Key Material');
  verdict('those of a hidden value are hidden', secret
    === '42 00 43 08 00 00 00 20' + ' ··'.repeat(32), secret);
  await page.call(seen.click, '.secret');
  const after = await page.call(marked, 'Key Material');
  verdict('and are there once it is shown', after === '42 00 43 08 00 00 00 20'
    + ' 01'.repeat(32), after);
  await page.call(seen.focus, '.tree summary');
  await page.press('ArrowDown');
  const name = await page.call(() => document.activeElement.querySelector('.name')?.textContent);
  const now = await page.call(() => document.querySelector('.digits mark').textContent);
  verdict('the arrows go from item to item', name === 'Response Header'
    && now.startsWith('42 00 7A 01'), [name, now]);
}

// Texts that would turn a line round.
async function directions({ verdict }, page) {
  const name = 'a\u202Ecba', bytes = messages.request(10, messages.named(name));
  await page.call(seen.show, bytes, null);
  await page.call(seen.rows);
  const places = await page.call(() => [...document.querySelectorAll('bdi')]
    .filter(bdi => bdi.textContent.includes('\u202E'))
    .map(bdi => [getComputedStyle(bdi).unicodeBidi, bdi.textContent]));
  verdict('a text is isolated in the row and in the tree', places.length === 2
    && places.every(([bidi, text]) => bidi === 'isolate' && text === 'a\u202Ecba'), places);
  const order = await page.call(() => {
    const row = [...document.querySelectorAll('.tree .row')].find(item =>
      item.textContent.includes('\u202E'));
    const x = node => {
      const range = document.createRange();
      range.selectNode(node);
      return range.getBoundingClientRect().x;
    };
    const quotes = [...row.childNodes].filter(node => node.textContent === '"');
    return [x(quotes[0]), x(row.querySelector('.value')), x(quotes[1])];
  });
  verdict('its quotes stand before and after it', order[0] < order[1] && order[1] < order[2],
    order);
  await page.call(() => { document.querySelector('.json').open = true; });
  await until(page, 10, () => document.querySelector('.json pre').textContent !== '');
  const json = await page.call(seen.text, '.json pre');
  verdict('in the JSON it is escaped', json.includes('a\\u202Ecba') && !json.includes('\u202E'),
    json);
}
async function dragged({ verdict }, page) {
  await page.call(seen.show, sent, received);
  await page.call(seen.rows);
  const [from, to] = await page.call(() => {
    const cell = document.querySelector('tr.exchange .result span');
    cell.scrollIntoView({ block: 'center' });
    const { left, right, top, bottom } = cell.getBoundingClientRect(), y = (top + bottom) / 2;
    return [[left + 2, y], [right - 2, y]];
  });
  await page.drag(from, to);
  const text = await page.call(() => String(getSelection()));
  verdict('dragging selects and opens no row', text.length > 4
    && await page.call(seen.countOf, 'tr.opened') === 0, text);
  await page.call(() => getSelection().removeAllRanges());
  await page.call(seen.click, 'tr.exchange');
  const isOpen = await page.call(seen.countOf, 'tr.opened');
  await page.call(seen.click, 'tr.exchange');
  verdict('a click opens it, and one more closes it',
    isOpen === 1 && await page.call(seen.countOf, 'tr.opened') === 0);
}

// Narrow screens: rows of a few lines, and nothing wider than the screen.
async function narrow({ verdict }, page) {
  for (const width of [390, 830]) {
    await page.view(width, 800, false);
    await page.call(seen.show, sent, received);
    await page.call(seen.rows);
    const got = await page.call(() => {
      const cells = [...document.querySelectorAll('tr.exchange')[2].cells];
      return { height: document.querySelectorAll('tr.exchange')[2].offsetHeight,
        least: Math.min(...cells.slice(1).map(cell => cell.offsetWidth)),
        over: document.documentElement.scrollWidth - innerWidth };
    });
    verdict(`at ${width} px a row has a few lines`, got.height <= 80 && got.over <= 0
      && (width < 560 || got.least >= 70), got);
    await page.call(seen.click, 'tr.exchange');
    await page.call(seen.click, '.show-bytes');
    const opened = await page.call(() => ({ over: document.documentElement.scrollWidth - innerWidth,
      tree: document.querySelector('.tree').offsetWidth }));
    verdict(`and an opened one fits`, opened.over <= 0 && opened.tree > width * 0.6, opened);
  }
  await page.view(1280, 1000, false);
}
async function assistive({ verdict }, page) {
  await page.call(seen.clear);
  const first = await page.call(() => {
    const box = document.querySelector('.welcome').getBoundingClientRect();
    return { area: box.width * box.height, example: document.getElementById('example').offsetHeight,
      canvas: getComputedStyle(document.documentElement).backgroundColor };
  });
  verdict('the empty page has a large place to drop, and an example', first.area > 60000
    && first.example >= 24 && !/, 0\)$/.test(first.canvas), first);
  await page.call(seen.click, '#example');
  const rows = await page.call(seen.rows);
  verdict('the example is read', rows.length === 5 && rows[0][4] === 'answered Create'
    && rows.every(row => /^(answered|failed)/.test(row[4])), rows);
  const button = () => ['aria-expanded', 'aria-label']
    .map(name => document.querySelector('tr.exchange button').getAttribute(name));
  const closed = await page.call(button);
  await page.call(seen.focus, 'tr.exchange button');
  await page.press('Enter');
  await until(page, 10, seen.countOf, 'tr.opened .message');
  const opened = await page.call(button);
  verdict("a row's button says what it opens, and whether it is open", closed[0] === 'false'
    && opened[0] === 'true' && opened[1] === '#1 Create 5f0c9a3e-backup Success',
      [closed, opened]);
  const live = await page.call(() => [...document.querySelectorAll('[aria-live], [role=status]')]
    .map(region => region.id));
  verdict('the summary alone is live', String(live) === 'summary', live);
  await page.call(seen.click, '.show-bytes');
  const small = await page.call(() => [...document.querySelectorAll('button, summary, input')]
    .filter(target => target.checkVisibility() && target.offsetHeight < 24)
    .map(target => target.outerHTML.slice(0, 80)));
  verdict('each target has 24 px', small.length === 0, small);
}
async function keyboardCopy({ verdict, native, file }, page) {
  await page.call(seen.show, sent, received);
  await page.call(seen.rows);
  await page.call(seen.click, 'tr.exchange');
  await page.call(seen.focus, 'tr.opened .copy');
  await page.press('Enter');
  const isSaid = await until(page, 10, () =>
    document.querySelector('tr.opened .copy').textContent === 'copied');
  await page.call(() => {
    const area = document.createElement('textarea');
    area.id = 'scratch';
    document.body.append(area);
  });
  await page.pasteInto('scratch');
  const got = await page.call(() => {
    const area = document.getElementById('scratch');
    area.remove();
    return area.value;
  });
  verdict('the skeleton is copied by the keyboard, and pasted', isSaid
    && got === native('web_skeleton', file('first', messages.exchange(1, 32)[0])), got);
}
async function reading(harness, page) {
  for (const run of [tables, searched, copies, shown, secrets, secretData, allOpened, bytesBeside,
    directions, dragged, narrow, assistive, keyboardCopy]) await run(harness, page);
  await page.call(seen.clear);
}
module.exports = { reading };
