// node vectors.mjs MODULE FOLDER..: each NAME.record that has a NAME.report beside it is audited by the module, and must have
// that report and its status. Of each record the digest, the lines, the lines of the plan, the seals and what is posted of
// each ballot are those that a search for words finds, and a room that is too short is told so.
import { createHash } from 'crypto';
import { readFileSync, readdirSync, existsSync } from 'fs';
import { Module } from './module.mjs';

const [file, ...folders] = process.argv.slice(2);
const module = new Module(file);
let records = 0, ballots = 0, faults = 0;
const is = (what, name, found, wanted) => {
  if (JSON.stringify(found) === JSON.stringify(wanted)) return;
  faults++;
  console.log(`${name}: ${what} is ${JSON.stringify(found).slice(0, 120)} and not ${JSON.stringify(wanted).slice(0, 120)}`);
};

// the lines of the blocks about a ballot, by their words
function blocks(lines, ballot) {
  const own = ['cast', 'spoiled', 'voided', 'audited', 'dispute'], later = ['code', 'over', 'paper'];
  let within = false, all = '';
  for (const line of lines) {
    const words = line.trimEnd().split(' ');
    if (own.includes(words[0])) within = Number(words[1]) === ballot;
    else if (!later.includes(words[0])) within = false;
    if (within) all += line;
  }
  return all;
}

function look(name, bytes, report) {
  module.renew();
  module.give(bytes);
  const told = module.audit();
  is('the report', name, told, { status: report.startsWith('yes') ? 0 : 1, report });
  is('a report without room', name, module.audit(report.length - 1), { status: 4, report: '' });
  is('the digest', name, module.digest(), createHash('sha256').update(bytes).digest('hex'));
  is('a digest without room', name, module.digest(63), null);
  const lines = bytes.toString('latin1').match(/[^\n]*\n|[^\n]+$/g) || [];
  is('line 0', name, module.line(0), null);
  for (const at of [1, 2, lines.length - 1, lines.length].filter(at => at >= 1)) is('line ' + at, name, module.line(at), lines[at - 1] ?? null);
  is('a line past the last', name, module.line(lines.length + 1), null);
  records++;
  if (!report.startsWith('yes')) return module.plan();
  const plan = lines.slice(0, lines.findIndex(line => /^(code-commit|row-commit|seal) /.test(line))).join('');
  const seals = lines.filter(line => line.startsWith('seal ')).join('');
  is('the plan', name, module.plan(), { status: 0, lines: plan });
  is('a plan without room', name, module.plan(plan.length - 1), { status: 4, lines: '' });
  is('the seals', name, module.seals(), { status: 0, lines: seals });
  is('seals without room', name, module.seals(seals.length - 1), { status: 4, lines: '' });
  const most = lines.filter(line => line.startsWith('ballots ')).reduce((sum, line) => sum + Number(line.split(' ')[2]), 0);
  for (let ballot = 0; ballot <= Math.min(most, 40) + 1; ballot++) {
    const shown = blocks(lines, ballot);
    is('ballot ' + ballot, name, module.ballot(ballot), { status: 0, lines: shown });
    if (shown) is('a ballot without room', name, module.ballot(ballot, shown.length - 1), { status: 4, lines: '' });
    ballots++;
  }
}

for (const folder of folders)
  for (const name of readdirSync(folder).filter(it => it.endsWith('.record')).sort()) {
    const report = `${folder}/${name.replace(/record$/, 'report')}`;
    if (existsSync(report)) look(name, readFileSync(`${folder}/${name}`), readFileSync(report, 'latin1'));
  }
look('no byte', Buffer.alloc(0), 'no 1 form\n');
look('a line without its end', Buffer.from('scantegrity2 1'), 'no 1 form\n');
look('bytes of each value', Buffer.from([...Array(256).keys()]), 'no 1 form\n');
look('a megabyte without a line', Buffer.alloc(1 << 20, 120), 'no 1 form\n');
console.log(`${records} records, ${ballots} ballots, ${faults} faults`);
process.exit(faults ? 1 : 0);
