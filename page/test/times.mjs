// node --experimental-websocket times.mjs chromium|firefox PAGE.html ROUNDS RECORD..: how long the page takes over each record
// in a headless browser, the least of the rounds in milliseconds
import { resolve } from 'path';
import { statSync } from 'fs';
const [which, page, rounds, ...records] = process.argv.slice(2);
const { start } = await import(`./${which}.mjs`);
const browser = await start();
const until = async expression => { for (;;) { if (await browser.value(expression).catch(() => false)) return; await new Promise(yes => setTimeout(yes, 20)); } };
const begun = performance.now();
await browser.open('file://' + resolve(page));
await until('typeof ready === "object"');
await browser.value('ready.then(() => 1)');
console.log(`${browser.name}: ready after ${(performance.now() - begun).toFixed(0)} ms`);
for (const record of records) {
  const least = {}, keep = (name, ms) => { least[name] = Math.min(least[name] ?? Infinity, ms); };
  let first = 0, memory = 0;
  for (let round = 0; round < Number(rounds); round++) {
    await browser.value('(window.told = null, 1)');
    await browser.choose('#file', [resolve(record)]);
    await until('window.told');
    const told = await browser.value('window.told');
    if (!round) first = told.ms.judge;
    memory = told.memory;
    for (const [part, ms] of Object.entries(told.ms)) keep(part, ms);
    if (told.status !== 0) continue;
    const before = performance.now();
    await until('document.getElementById("seals-wait").hidden');
    keep('seals', performance.now() - before);
    keep('ballot', await browser.value('(async () => { const at = performance.now(); await ask("ballot", { number: 1 }); return performance.now() - at; })()'));
  }
  console.log(`${record}: ${(statSync(record).size / 1e6).toFixed(1)} MB, ${Object.entries(least).map(([part, ms]) => `${part} ${ms.toFixed(0)}`).join(', ')} ms; first audit ${first.toFixed(0)} ms; memory ${(memory / 1e6).toFixed(0)} MB`);
}
await browser.end();
