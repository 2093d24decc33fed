// node --experimental-websocket page.mjs chromium|firefox PAGE.html PICTURES [FOLDER..]: gives the page records in a headless
// browser, looks at what it shows, and takes pictures. Each NAME.record of a FOLDER must have the report that stands beside it.
import { execFileSync } from 'child_process';
import { createHash, randomFillSync } from 'crypto';
import { existsSync, mkdirSync, mkdtempSync, openSync, readFileSync, readdirSync, rmSync, truncateSync, writeFileSync, writeSync, closeSync } from 'fs';
import { tmpdir } from 'os';
import { dirname, resolve } from 'path';
import { fileURLToPath } from 'url';

const [which, page, pictures, ...folders] = process.argv.slice(2);
const top = resolve(dirname(fileURLToPath(import.meta.url)), '../..');
const room = mkdtempSync(tmpdir() + '/records-');
mkdirSync(pictures, { recursive: true });
const { start } = await import(`./${which}.mjs`);
const browser = await start();
let faults = 0, looked = 0;

// ---- Records ----

const made = (name, bytes) => { const file = `${room}/${name}`; writeFileSync(file, bytes); return file; };
const read = file => readFileSync(file, 'latin1');
const spring = `${top}/examples/spring/spring.record`, first = `${top}/examples/first/first.record`;

// the lines, where each seal is the hash of those before it
function sealed(lines) {
  const hash = createHash('sha256'), out = [];
  for (const line of lines) {
    const said = line.startsWith('seal ') ? line.slice(0, 7) + hash.copy().digest('hex') : line;
    hash.update(said + '\n');
    out.push(said);
  }
  return out.join('\n') + '\n';
}

const markup = '<img/src=x/onerror=window.hit=1>', long = '"&lt;' + 'W'.repeat(59);
const hostile = made('hostile.record', sealed(read(first).trimEnd().split('\n').map(line =>
  line.startsWith('election ') ? 'election ' + markup : line.startsWith('race ') ? line.replace(/^race \S+/, 'race ' + long) : line === 'cand Ada' ? 'cand </script><script>hit=2</script>' : line)));
const strange = made('strange <b>.record', Buffer.concat([Buffer.from(`scantegrity2 1\nelection ${markup}\n`), Buffer.from([0, 255, 0xad, 0xe2, 0x80, 0xae, 9, 27]), Buffer.alloc(40000, 'y'), Buffer.from('\nmore\n')]));
const other = seed => made(`town${seed}.record`, execFileSync('python3', [`${top}/bench/record.py`, '40', '3,4', '--instances', '2', '--draw', '00ff', '--seed', String(seed), '--audited', '2', '--spoiled', '2', '--disputes', '3']));
const wrong = made('wrong.record', read(spring).replace(/^(total 0 1 )(\d+)$/m, (_, words, votes) => words + (Number(votes) + 1)));
const cut = made('cut.record', readFileSync(spring).subarray(0, 30000));
const noise = `${room}/noise.record`;
const file = openSync(noise, 'w');
for (let at = 0; at < 100; at++) writeSync(file, randomFillSync(Buffer.alloc(1e6)));
closeSync(file);
const large = made('large.record', '');
truncateSync(large, 1.2e9);

// ---- The page ----

const is = (what, found, wanted) => {
  looked++;
  if (JSON.stringify(found) === JSON.stringify(wanted)) return;
  faults++;
  console.log(`${what}: ${JSON.stringify(found)} and not ${JSON.stringify(wanted)}`);
};
const holds = (what, found) => is(what, Boolean(found), true);
const text = id => browser.value(`document.getElementById(${JSON.stringify(id)}).innerText`);
const shown = id => browser.value(`!document.getElementById(${JSON.stringify(id)}).hidden`);
async function until(expression, seconds = 120) {
  for (const end = Date.now() + seconds * 1000; Date.now() < end; await new Promise(yes => setTimeout(yes, 40)))
    if (await browser.value(expression).catch(() => false)) return;
  throw new Error('not in time: ' + expression);
}
async function give(...files) {
  await browser.value('(window.told = null, 1)');
  await browser.choose('#file', files);
  await until('window.told && document.getElementById("work").hidden && document.getElementById("seals-wait").hidden');
  return browser.value('window.told');
}
async function ballot(number) {
  await browser.value(`(document.getElementById("ballot").value = "${number}", document.getElementById("look").requestSubmit(), 1)`);
  await until('document.querySelector("#found > h3, #found > p:not(.quiet)")');
  return text('found');
}
const picture = async name => browser.picture(`${pictures}/${which}_${name}.png`);
// each text that is seen stands out from what is behind it
const CONTRAST = `(() => {
  const parts = color => color.match(/[\\d.]+/g).map(Number);
  const light = color => parts(color).slice(0, 3).map(c => c / 255).map(c => c <= .03928 ? c / 12.92 : ((c + .055) / 1.055) ** 2.4).reduce((sum, c, k) => sum + c * [.2126, .7152, .0722][k], 0);
  const behind = it => { for (; it; it = it.parentElement) { const color = getComputedStyle(it).backgroundColor, p = parts(color); if (p.length < 4 || p[3] > 0) return color; } return 'rgb(255,255,255)'; };
  const low = [];
  for (const it of document.querySelectorAll('body *')) {
    if (!it.offsetParent || ![...it.childNodes].some(n => n.nodeType === 3 && n.data.trim())) continue;
    const a = light(getComputedStyle(it).color), b = light(behind(it)), ratio = (Math.max(a, b) + .05) / (Math.min(a, b) + .05);
    if (ratio < 4.5) low.push(it.tagName + ' ' + it.textContent.slice(0, 20) + ' ' + ratio.toFixed(2));
  }
  return low;
})()`;

await browser.size(1000, 900);
const begun = performance.now();
await browser.open('file://' + resolve(page));
await until('typeof ready === "object"');
await browser.value('ready.then(() => 1)');
console.log(`${browser.name}: ready after ${(performance.now() - begun).toFixed(0)} ms`);
await browser.value('(document.querySelector("[data-tongue=en]").click(), 1)');
holds('the engine is loaded', (await text('engine')).includes('loaded'));
await picture('start');

// all records with reports
for (const folder of folders)
  for (const name of readdirSync(folder).filter(it => it.endsWith('.record')).sort()) {
    const report = `${folder}/${name.replace(/record$/, 'report')}`;
    if (!existsSync(report)) continue;
    const told = await give(resolve(`${folder}/${name}`));
    is(name, [told.status, told.report], [read(report).startsWith('yes') ? 0 : 1, read(report)]);
  }

// a record that keeps every rule
let told = await give(spring);
is('the verdict on spring', [told.status, await text('answer')], [0, 'Yes: this record keeps every rule']);
is('the focus', await browser.value('document.activeElement.id'), 'answer');
is('its digest', told.digest, createHash('sha256').update(readFileSync(spring)).digest('hex'));
const totals = read(spring).match(/^total .*/gm).map(line => Number(line.split(' ')[3]));
is('its totals', await browser.value('[...document.querySelectorAll("#tables td.count")].map(it => Number(it.textContent))'), totals);
is('its candidates', await browser.value('[...document.querySelectorAll("#tables tbody th")].map(it => it.textContent)'), read(spring).match(/^cand .*/gm).map(line => line.slice(5)));
is('its seals', await browser.value('[...document.querySelectorAll("#digests td")].map(it => it.textContent.replace(/ /g, ""))'), [told.digest, ...read(spring).match(/^seal .*/gm).map(line => line.slice(7))]);
const seal = read(spring).match(/^seal 2 (.*)/m)[1];
const paste = value => browser.value(`(document.getElementById("other").value = "${value}", document.getElementById("other").dispatchEvent(new Event("input")), document.getElementById("same-as").textContent)`);
holds('a pasted seal', (await paste(seal.toUpperCase().replace(/(....)/g, '$1 '))).startsWith('The same as: Seal 2'));
holds('other digits', (await paste('0'.repeat(64))).startsWith('None of'));
is('few digits', await paste('00ff'), '4 of 64 digits.');
await paste(seal);
const codes = block => block.match(/^code .*/gm).map(line => line.split(' ')[4]);
const block = read(spring).match(/^cast (\d+)\n(code .*\n)+/m);
await ballot(block[1]);
is('the codes of a cast ballot', await browser.value('[...document.querySelectorAll("#found .codes .code")].map(it => it.textContent)'), codes(block[0]));
holds('a ballot that does not exist', (await ballot('9999')).startsWith('Nothing is posted of ballot 9999'));
const audited = read(spring).match(/^audited (\d+)/m)[1];
holds('an audited ballot', (await ballot(audited)).includes('was used to audit the print'));
await picture('yes');
if (browser.media) {
  await browser.media([{ name: 'prefers-color-scheme', value: 'dark' }]);
  is('low contrast in the dark', await browser.value(CONTRAST), []);
  await picture('yes_dark');
  await browser.media([], 'print');
  await picture('yes_print');
  await browser.media([]);
}
is('low contrast', await browser.value(CONTRAST), []);
for (const width of [320, 390, 768, 1280]) {
  await browser.size(width, 900);
  holds('nothing is wider than ' + width, await browser.value('document.documentElement.scrollWidth <= innerWidth'));
  if (width === 390) await picture('yes_phone');
}
await browser.size(1000, 900);
await browser.value('(document.querySelector("[data-tongue=de]").click(), 1)');
is('in German', [await text('answer'), await browser.value('document.documentElement.lang')], ['Ja: Dieses Protokoll hält alle Regeln ein', 'de']);
holds('the ballot in German', (await text('found')).includes('diente der Prüfung des Drucks'));
await picture('yes_german');
await browser.value('(document.querySelector("[data-tongue=en]").click(), 1)');

// a record with a fault, and what is no record
const number = read(wrong).split('\n').findIndex(line => line.startsWith('total 0 1 ')) + 1;
told = await give(wrong);
is('a wrong total', [told.status, told.report, await text('answer')], [1, `no ${number} total\n`, `No: line ${number} breaks a rule`]);
is('its line', await browser.value('document.querySelector("#lines mark").textContent'), `${number}  ${read(wrong).split('\n')[number - 1]}`);
is('low contrast of a no', await browser.value(CONTRAST), []);
holds('no totals are shown', !(await shown('totals')) && !(await shown('mine')));
await picture('no');
await browser.size(390, 900);
await picture('no_phone');
await browser.size(1000, 900);
told = await give(cut);
is('a record that was cut', [told.status, told.report.split(' ')[2]], [1, 'form\n']);
told = await give(made('empty.record', ''));
is('an empty file', [told.report, await browser.value('document.querySelector("#lines mark").textContent')], ['no 1 form\n', '1  (the file ends here)']);
told = await give(process.execPath);
is('a program', told.report, 'no 1 form\n');
told = await give(noise);
is('noise of 100 MB', told.report, 'no 1 form\n');
console.log(`noise of 100 MB: ${Object.entries(told.ms).map(([part, ms]) => `${part} ${ms.toFixed(0)}`).join(', ')} ms`);
told = await give(large);
is('a file that is too large', [told.status, await text('answer')], [-2, 'No answer']);
await picture('none');

// a hostile record shows as text
told = await give(hostile);
is('names with markup', told.status, 0);
holds('the name of the election', (await text('facts')).includes(markup));
holds('a candidate', (await text('tables')).includes('</script><script>hit=2</script>'));
is('nothing of it ran', await browser.value('[typeof window.hit, document.images.length, document.scripts.length]'), ['undefined', 0, 1]);
await browser.size(320, 900);
holds('long names fit', await browser.value('document.documentElement.scrollWidth <= innerWidth'));
await picture('hostile');
told = await give(strange);
is('a strange record', told.report, 'no 3 form\n');
holds('its bytes as numbers', (await text('lines')).includes('\\x00\\xff\\xad\\xe2\\x80\\xae\\x09\\x1byyy'));
holds('a long line fits', await browser.value('document.documentElement.scrollWidth <= innerWidth'));
await browser.size(1000, 900);
await picture('strange');

// a county
const [one, two] = [other(1), other(2)];
await give(one, two);
const sum = [one, two].map(file => read(file).match(/^total .*/gm).map(line => Number(line.split(' ')[3]))).reduce((a, b) => a.map((it, at) => it + b[at]));
is('the sums', await browser.value('[...document.querySelectorAll("#tables td.count")].map(it => Number(it.textContent))'), sum);
is('the verdict on a county', await text('answer'), 'All 2 records keep every rule, and their races agree');
is('low contrast of a county', await browser.value(CONTRAST), []);
await picture('county');
await browser.value('(window.told = null, document.querySelectorAll("#parts button")[1].click(), 1)');
await until('window.told && document.getElementById("seals-wait").hidden');
holds('one of them is opened', (await text('about')).includes('town2.record') && (await shown('mine')));
await browser.value('(document.getElementById("together").click(), 1)');
is('all together again', await text('totals-title'), 'Sums of all records');
await give(one, spring);
holds('other races', (await text('meaning')).startsWith('File 2 (spring.record) has other races'));
await give(one, two, one);
holds('one twice', (await text('meaning')).includes('the same first seal as file 1'));
await give(one, wrong, two);
holds('one that is no good', (await text('meaning')).startsWith('File 2 (wrong.record) does not keep'));
holds('no sums', !(await shown('totals')));
await picture('county_no');

// a check that is stopped
await browser.value('(window.told = null, 1)');
await browser.choose('#file', [noise]);
await until('!document.getElementById("work").hidden');
await browser.value('(document.getElementById("cancel").click(), 1)');
is('a check that was stopped', [await text('answer'), await shown('work')], ['No answer', false]);
told = await give(spring);
is('and the next', told.status, 0);

// names for a screen reader, and the keyboard
if (browser.tree) {
  const nameless = (await browser.tree()).filter(it => !it.ignored && ['button', 'textbox', 'heading', 'progressbar'].includes(it.role?.value) && !it.name?.value);
  is('controls without a name', nameless.map(it => it.role.value), []);
  await browser.value('(document.activeElement.blur(), scrollTo(0, 0), 1)');
  const seen = [];
  for (let at = 0; at < 12; at++) { await browser.press('Tab', 9); seen.push(await browser.value('document.activeElement.id || document.activeElement.dataset.tongue || document.activeElement.tagName')); }
  for (const id of ['en', 'de', 'file', 'ballot', 'other', 'print']) holds('the keyboard reaches ' + id, seen.includes(id));
  await browser.value('(document.getElementById("ballot").value = "4", document.getElementById("ballot").focus(), 1)');
  await browser.press('Enter', 13);
  await until('document.querySelector("#found h3")');
  holds('Enter looks a ballot up', (await text('found')).startsWith('Ballot 4'));
}

// no request leaves, and nothing was refused
const asked = browser.requests().filter(url => !url.startsWith('file://' + resolve(page)) && !/^(blob|data):/.test(url));
is('requests', asked, []);
is('what the browser complains of', browser.faults(), []);
await browser.end();
rmSync(room, { recursive: true, force: true });
console.log(`${browser.name}: ${looked} looks, ${faults} faults`);
process.exit(faults ? 1 : 0);
