// What the fields and the window hear, and the start.
const EXAMPLE = '{{EXAMPLE}}';

for (const side of SIDES) {
  const area = $(side);
  area.addEventListener('input', () => takeText(side, area.value, true));
  area.addEventListener('paste', event => {
    const text = event.clipboardData.getData('text');
    if (text.length <= LONGEST) return;
    event.preventDefault();
    takeText(side, text, false);
  });
  $(side + '-file').onchange = event => {
    if (event.target.files[0]) takeFile(side, event.target.files[0]);
  };
}
const sideAt = event => event.target.closest?.('[data-side]')?.dataset.side || 'sent';
function markDrop(side) {
  document.body.classList.toggle('over', side !== null);
  for (const field of SIDES) $(field).classList.toggle('over', field === side);
}
document.addEventListener('dragover', event => {
  event.preventDefault();
  markDrop(sideAt(event));
});
document.addEventListener('dragleave', event => {
  if (!event.relatedTarget) markDrop(null);
});
document.addEventListener('drop', event => {
  event.preventDefault();
  markDrop(null);
  const files = [...event.dataTransfer.files], text = event.dataTransfer.getData('text/plain');
  if (files.length > 2) {
    $('summary').replaceChildren(element('p', 'bad error', 'Drop one file, or two: '
      + counted(files.length, 'file') + ' were dropped.'));
  } else if (files.length) takeFiles(sideAt(event), files);
  else if (text) takeText(sideAt(event), text, false);
});
function clear() {
  for (const side of SIDES) empty(side);
  $('took').textContent = '';
  show();
}
$('clear').onclick = clear;
$('example').onclick = () => {
  clear();
  takeText('sent', EXAMPLE, false);
};
async function start() {
  try {
    const bytes = Uint8Array.from(atob(MODULE), char => char.charCodeAt(0));
    page.wasm = (await WebAssembly.instantiate(bytes, {})).instance.exports;
    $('state').textContent = ABOUT + ' The page fetches nothing, and keeps nothing.';
  } catch (error) {
    $('state').className = 'bad';
    $('state').textContent = 'This browser does not run the module (' + error.message
      + '). It may run kmip32.html, which needs no 64-bit memory.';
  }
  for (const side of SIDES) takeText(side, $(side).value, true);
  page.isStarted = true;
}
page.started = start();
