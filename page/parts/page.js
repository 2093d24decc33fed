// The page: it shows what the worker answers. Text of a record goes in as text alone (textContent), never as markup.
const the = id => document.getElementById(id);
const show = (id, is = true) => { the(id).hidden = !is; };
const make = (name, text = "", more = {}) => Object.assign(document.createElement(name), { textContent: text }, more);
const kinds = ["form", "seal", "opening", "side", "pointer", "flag", "path", "total", "print", "rule", "dispute"];
const fates = ["cast", "spoiled", "voided", "audited"];

// ---- Words ----

let tongue = (navigator.language || "en").slice(0, 2) in WORDS ? navigator.language.slice(0, 2) : "en";
const say = (key, ...put) => WORDS[tongue][key].replace(/\{(\d)\}/g, (_, k) => put[k]);
const count = number => number.toLocaleString(tongue, { useGrouping: true });

// Bytes of a record that are no visible sign of ASCII, as their numbers; and the name of a file without signs that hide.
const visible = text => text.replace(/[^ -~]/g, sign => "\\x" + sign.charCodeAt(0).toString(16).padStart(2, "0"));
const named = name => name.replace(/\p{C}/gu, "?");

function speak() {
  document.documentElement.lang = tongue;
  document.title = say("title");
  for (const it of document.querySelectorAll("[data-say]")) it.textContent = say(it.dataset.say);
  for (const it of the("tongues").children) it.setAttribute("aria-pressed", String(it.dataset.tongue === tongue));
  showEngine();
  showAll();
}

for (const key of Object.keys(WORDS)) {
  const button = make("button", WORDS[key].name, { type: "button", lang: key });
  button.dataset.tongue = key;
  button.onclick = () => { tongue = key; speak(); };
  the("tongues").append(button);
}

// ---- The worker ----

const WARM = 300; // milliseconds of judging a known record, before a file comes
let worker, waits, next = 1, ticking = 0, stageOf = "";
const engine = { size: 0, strange: false, failed: "" };

function startWorker() {
  waits = new Map();
  worker = new Worker(URL.createObjectURL(new Blob([WORKER], { type: "text/javascript" })));
  worker.onmessage = ({ data }) => (data.id ? answered(data) : progressed(data));
  worker.onerror = e => { engine.failed = e.message || "worker"; showEngine(); };
  return ask("load", { wasm: WASM, known: KNOWN, ms: WARM }).then(
    is => { engine.strange = !is; engine.size = Math.round((WASM.length * 3) / 4096); },
    e => { engine.failed = e.message; },
  ).then(showEngine);
}

function ask(name, more = {}) {
  return new Promise((yes, no) => {
    waits.set(next, { yes, no });
    worker.postMessage({ id: next++, ask: name, ...more });
  });
}

function answered(data) {
  const wait = waits.get(data.id);
  waits.delete(data.id);
  if ("done" in data) wait.yes(data.done);
  else wait.no(new Error(data.failed));
}

function progressed(data) {
  if ("part" in data) return stage("reading", data.part);
  // what is left takes some four times as long as the hash: the bar runs by that guess
  const start = performance.now();
  clearInterval(ticking);
  ticking = setInterval(() => stage("checking", Math.min(0.99, (performance.now() - start) / data.guess)), 100);
}

// Its text changes where the stage does, so that a screen reader says each once.
function stage(key, part) {
  const text = work.prefix() + say(key, work.name);
  if (stageOf !== text) the("stage").textContent = stageOf = text;
  the("bar").value = part;
}

function showEngine() {
  the("engine").textContent = engine.failed ? say("not_loaded", engine.failed) : engine.strange ? say("not_known") : engine.size ? say("loaded", engine.size) : "";
}

// ---- What is known of the files ----

const work = { name: "", at: 0, of: 1, round: 0, prefix: () => (work.of > 1 ? say("part", work.at + 1, work.of) : "") };
let one = null; // the record that is shown: { name, told, plan, seals, lines, blocks }
let county = null; // { files, parts, fault }

// The plan's lines, as names.
function planOf(text) {
  const plan = { election: "", races: [], ballots: 0 };
  for (const line of (text || "").split("\n")) {
    const words = line.split(" ");
    if (words[0] === "election") plan.election = words[1];
    else if (words[0] === "race") plan.races.push({ name: words[1], votes: Number(words[3]), candidates: [] });
    else if (words[0] === "cand" && plan.races.length) plan.races[plan.races.length - 1].candidates.push(words[1]);
    else if (words[0] === "ballots") plan.ballots += Number(words[2]);
  }
  return plan;
}

// The digits of the seals, by their numbers.
function sealsOf(text) {
  const seals = {};
  for (const line of (text || "").split("\n")) {
    const words = line.split(" ");
    if (words[0] === "seal") seals[words[1]] = words[2];
  }
  return seals;
}

// The words of a report, line by line.
const reportOf = told => told.report.trimEnd().split("\n").map(line => line.split(" "));
const totalsOf = told => reportOf(told).slice(1).map(words => words.slice(1).map(Number));
const raceOf = (plan, race) => plan.races[race] || { name: say("race", race), votes: 1, candidates: [] };
const candidateOf = (race, candidate) => race.candidates[candidate] || say("candidate_n", candidate);

// Judges one file. An answer that is not 0 or 1 says nothing of it.
async function judge(file) {
  const it = { name: file.name, told: null, plan: planOf(""), seals: null, lines: [], blocks: null };
  try {
    it.told = await ask("audit", { file });
    if (it.told.status === 0 || it.told.status === 1) it.plan = planOf(await ask("plan"));
  } catch (e) {
    it.told = { status: -1, report: "", digest: "", size: file.size, failed: e.message };
  }
  clearInterval(ticking);
  return it;
}

// The line that is wrong, and those beside it.
async function linesAt(number) {
  const lines = [];
  for (let at = Math.max(1, number - 2); at <= number + 1; at++) {
    const line = await ask("line", { number: at });
    if (line || at === number) lines.push({ number: at, line, wrong: at === number });
  }
  return lines;
}

// ---- Files are given ----

async function check(files) {
  if (!files.length) return;
  const round = ++work.round;
  if (!the("work").hidden) restart();
  one = county = window.told = null;
  showAll();
  show("work");
  work.of = files.length;
  if (files.length === 1) await checkOne(files[0], round);
  else await checkCounty(files, round);
}

async function checkOne(file, round) {
  Object.assign(work, { name: named(file.name), at: 0 });
  stage("reading", 0);
  const it = await judge(file);
  if (round !== work.round) return;
  if (it.told.status === 1) it.lines = await linesAt(Number(reportOf(it.told)[0][1]));
  if (round !== work.round) return;
  show("work", false);
  one = it;
  the("found").replaceChildren();
  the("other").value = "";
  showAll();
  the("answer").focus();
  window.told = it.told;
  if (it.told.status === 0) {
    const seals = sealsOf(await ask("seals").catch(() => ""));
    if (round === work.round) { it.seals = seals; showSame(); }
  }
}

async function checkCounty(files, round) {
  const parts = [];
  for (const [at, file] of files.slice(0, 100).entries()) {
    Object.assign(work, { name: named(file.name), at });
    stage("reading", 0);
    const it = await judge(file);
    if (it.told.status === 0) it.seals = sealsOf(await ask("seals").catch(() => ""));
    if (round !== work.round) return;
    parts.push(it);
  }
  show("work", false);
  county = { files, parts, fault: countyFault(files, parts) };
  showAll();
  the("answer").focus();
  window.told = { county: true, fault: county.fault };
}

// Why the records are not added up: the first file that has a fault, and its first.
function countyFault(files, parts) {
  if (files.length > 100) return ["county_parts"];
  const races = it => JSON.stringify(it.plan.races);
  for (const [at, it] of parts.entries()) {
    const name = named(it.name);
    if (it.told.status !== 0 || !it.seals || !it.seals[1]) return ["county_bad", at + 1, name];
    if (races(it) !== races(parts[0])) return ["county_differs", at + 1, name];
    const other = parts.findIndex(before => before.seals[1] === it.seals[1]);
    if (other < at) return ["county_repeats", at + 1, name, other + 1];
  }
  return null;
}

// What the worker is at is given up.
function restart() {
  clearInterval(ticking);
  worker.terminate();
  startWorker();
}

function stop() {
  work.round++;
  restart();
  show("work", false);
  one = { name: work.name, told: { status: -3, report: "", digest: "", size: 0 }, plan: planOf(""), seals: null, lines: [], blocks: null };
  county = null;
  showAll();
  the("answer").focus();
}

// ---- What is shown ----

function showAll() {
  showVerdict();
  showCounty();
  showWrong();
  showTotals();
  showSame();
  showMine();
}

function showVerdict() {
  show("verdict", Boolean(one || county));
  the("pick").classList.toggle("done", Boolean(one || county));
  if (!one && !county) return;
  const look = one ? verdictOf(one) : countyVerdict();
  the("verdict").className = look.as;
  the("sign").textContent = look.sign || { yes: "✓", no: "✗", none: "?" }[look.as];
  the("answer").textContent = look.answer;
  the("meaning").textContent = look.meaning;
  the("facts").textContent = look.facts || "";
  the("about").textContent = look.about || "";
}

function verdictOf(it) {
  const { told, plan } = it;
  const facts = plan.races.length ? say("facts", visible(plan.election), plan.races.length, count(plan.ballots)) : "";
  const about = told.size || told.digest ? say("file", named(it.name), count(told.size)) : "";
  if (told.status === 0) return { as: "yes", answer: say("yes"), meaning: say("yes_text"), facts, about };
  if (told.status === 1) {
    const [, number, kind] = reportOf(told)[0];
    return { as: "no", answer: say("no", count(Number(number))), meaning: kindText(kind), facts, about };
  }
  return { as: "none", answer: say("none"), meaning: noAnswer(told), about };
}

const kindText = kind => (kinds.includes(kind) ? say("kind_" + kind) : visible(kind));

function noAnswer(told) {
  if (told.status === -3) return say("stopped");
  if (told.status === -2) return say("none_large", count(Math.floor(told.most / 1e6)));
  if (told.status === -1) return say("none_failed", visible(told.failed));
  return say("none_memory");
}

function countyVerdict() {
  if (!county.fault) return { as: "yes", answer: say("county_yes", county.parts.length), meaning: say("county_yes_text") };
  const [key, ...put] = county.fault, is = key === "county_bad" && county.parts[put[0] - 1].told.status === 1;
  return { as: is ? "no" : "none", sign: "!", answer: say("county_no"), meaning: say(key, ...put) };
}

function showCounty() {
  show("county", Boolean(county));
  if (!county) return;
  show("together", Boolean(one));
  const table = the("parts"), head = make("tr"), body = make("tbody");
  for (const key of ["county_file", "county_answer"]) head.append(make("th", say(key), { scope: "col" }));
  head.append(make("td"));
  for (const [at, it] of county.parts.entries()) {
    const row = make("tr"), open = make("button", say("county_open"), { type: "button" }), last = make("td");
    open.setAttribute("aria-label", say("open_one", named(it.name)));
    open.onclick = () => openOne(at);
    last.append(open);
    row.append(make("th", at + 1 + ". " + named(it.name), { scope: "row" }), make("td", answerOf(it)), last);
    body.append(row);
  }
  const top = make("thead");
  top.append(head);
  table.replaceChildren(top, body);
}

function answerOf(it) {
  if (it.told.status === 0) return say("answer_yes");
  if (it.told.status === 1) { const words = reportOf(it.told)[0]; return say("answer_no", count(Number(words[1])), words[2]); }
  return say("answer_none");
}

// One of a county's files is judged again and shown.
async function openOne(at) {
  const round = ++work.round;
  work.of = 1;
  show("work");
  await checkOne(county.files[at], round);
}

function showWrong() {
  const is = Boolean(one && one.told.status === 1);
  show("wrong", is);
  if (!is) return;
  const kind = reportOf(one.told)[0][2];
  the("turn-3").textContent = say("turn_3", visible(kind));
  the("lines").replaceChildren(...one.lines.map(lineShown));
}

function lineShown({ number, line, wrong }) {
  const text = line ? line.text.replace(/\n$/, "") : "";
  const row = make(wrong ? "mark" : "div");
  const most = wrong ? 2000 : 160, more = line ? line.more + Math.max(0, text.length - most) : 0;
  row.append(make("span", number + "  ", { className: "at" }), line ? (text ? visible(text.slice(0, most)) : say("empty_line")) : say("at_end"));
  if (more) row.append(" ", make("span", say("more_bytes", count(more)), { className: "at" }));
  return row;
}

function showTotals() {
  const isSum = Boolean(county && !county.fault && !one);
  const is = isSum || Boolean(one && one.told.status === 0);
  show("totals", is);
  if (!is) return;
  the("totals-title").textContent = say(isSum ? "sums" : "totals");
  const plan = isSum ? county.parts[0].plan : one.plan;
  const totals = isSum ? sums(county.parts.map(it => totalsOf(it.told))) : totalsOf(one.told);
  const races = [...new Set(totals.map(total => total[0]))];
  the("tables").replaceChildren(...races.flatMap(race => raceTotals(raceOf(plan, race), race, totals.filter(total => total[0] === race))));
}

// The totals of all records: they are those of the same races, in the same order.
const sums = all => all[0].map(([race, candidate], at) => [race, candidate, all.reduce((sum, totals) => sum + totals[at][2], 0)]);

function raceTotals(race, number, totals) {
  const title = make("h3", visible(race.name), { id: "race-" + number });
  if (race.votes > 1) title.append(make("small", say("votes_each", race.votes)));
  const table = make("table", "", { className: "tally" }), head = make("tr"), body = make("tbody"), top = make("thead");
  table.setAttribute("aria-labelledby", title.id);
  head.append(make("th", say("candidate"), { scope: "col" }), make("th", say("votes"), { scope: "col", className: "count" }), make("th", "", { className: "bars" }));
  head.lastChild.setAttribute("aria-hidden", "true");
  top.append(head);
  const most = Math.max(1, ...totals.map(total => total[2]));
  for (const [, candidate, votes] of totals) {
    const row = make("tr"), bars = make("td"), track = make("div", "", { className: "track" }), bar = make("div", "", { className: "bar" });
    bars.setAttribute("aria-hidden", "true");
    bar.style.width = (100 * votes) / most + "%";
    if (votes) track.append(bar);
    bars.append(track);
    row.append(make("th", visible(candidateOf(race, candidate)), { scope: "row" }), make("td", count(votes), { className: "count" }), bars);
    body.append(row);
  }
  table.append(top, body);
  return [title, table];
}

const grouped = digits => digits.replace(/(.{4})(?=.)/g, "$1 ");
const isJudged = () => Boolean(one && (one.told.status === 0 || one.told.status === 1));

function showSame() {
  show("same", isJudged());
  if (!isJudged()) return;
  const rows = [["whole", one.told.digest]];
  for (const seal of one.seals ? ["1", "2", "3"] : []) if (one.seals[seal]) rows.push(["seal_" + seal, one.seals[seal]]);
  the("digests").replaceChildren(...rows.map(([key, digits]) => {
    const row = make("tr");
    row.append(make("th", say(key), { scope: "row" }), make("td", grouped(digits), { className: "hex" }));
    return row;
  }));
  show("seals-wait", one.told.status === 0 && !one.seals);
  one.digits = rows;
  compare();
}

function compare() {
  const other = the("other").value.toLowerCase().replace(/[^0-9a-f]/g, "");
  const found = one && one.digits ? one.digits.find(row => row[1] === other) : null;
  the("same-as").textContent = !other ? "" : other.length !== 64 ? say("digits_short", other.length) : found ? say("same_as", say(found[0])) : say("same_none");
  the("same-as").className = other.length === 64 ? (found ? "is-same" : "is-other") : "";
}

// ---- A ballot ----

function showMine() {
  show("mine", Boolean(one && one.told.status === 0));
  if (one && one.blocks) showBallot();
}

async function look() {
  const it = one, number = Number(the("ballot").value);
  if (!it || !(number >= 1 && number <= 4294967295)) return;
  the("found").replaceChildren(make("p", say("looking"), { className: "quiet" }));
  const lines = await ask("ballot", { number }).catch(() => null);
  it.blocks = { number, lines };
  if (it === one) showBallot();
}

// The lines of a ballot as blocks: its own, and one for each dispute about it.
function blocksOf(lines) {
  const blocks = [];
  for (const line of lines.split("\n").filter(Boolean)) {
    const words = line.split(" ");
    if (fates.includes(words[0]) || words[0] === "dispute") blocks.push({ head: words, lines: [] });
    else if (blocks.length) blocks[blocks.length - 1].lines.push(words);
  }
  return blocks;
}

function showBallot() {
  const { number, lines } = one.blocks, box = the("found");
  box.replaceChildren();
  if (lines === null) return box.append(make("p", say("too_much")));
  const blocks = blocksOf(lines), own = blocks.find(block => block.head[0] !== "dispute");
  if (!own) box.append(make("h3", say("nothing", number)));
  else box.append(...ballotShown(number, own));
  for (const block of blocks) if (block.head[0] === "dispute") box.append(disputeShown(block.head));
  if (!lines) return;
  const raw = make("details");
  raw.append(make("summary", say("raw")), make("pre", visibleLines(lines)));
  box.append(raw);
}

const visibleLines = lines => lines.split("\n").map(visible).join("\n");

function ballotShown(number, { head, lines }) {
  const races = new Map();
  for (const words of lines) races.set(words[1], [...(races.get(words[1]) || []), words]);
  const rows = [...races].map(([race, list]) => raceShown(raceOf(one.plan, Number(race)), list));
  if (head[0] === "cast" && !rows.length) rows.push(make("p", say("no_mark")));
  return [make("h3", say(head[0], number)), ...rows];
}

function raceShown(race, list) {
  const row = make("div", "", { className: "race" }), codes = make("div", "", { className: "codes" });
  row.append(make("b", visible(race.name)));
  if (list.some(words => words[0] === "over")) row.append(make("p", say("over")));
  for (const words of list) if (words[0] === "code") codes.append(make("span", words[4], { className: "code" }));
  if (codes.children.length) row.append(codes);
  for (const words of list) if (words[0] === "paper") row.append(paperShown(race, words.slice(2)));
  return row;
}

function paperShown(race, codes) {
  const line = make("div", "", { className: "beside" });
  line.append(say("on_paper") + ": ");
  for (const [candidate, code] of codes.entries()) line.append(visible(candidateOf(race, candidate)) + " ", make("span", code, { className: "code" }), " ");
  return line;
}

function disputeShown(words) {
  const answer = ["posted", "unposted", "absent"].includes(words[4]) ? say(words[4]) : visible(words[4]);
  return make("p", say("dispute", visible(raceOf(one.plan, Number(words[2])).name), visible(words[3]), answer));
}

// ---- What is done on the page ----

the("file").onchange = e => { const files = [...e.target.files]; e.target.value = ""; check(files); };
the("cancel").onclick = stop;
the("together").onclick = () => { work.round++; one = null; showAll(); the("answer").focus(); };
the("other").oninput = compare;
the("look").onsubmit = e => { e.preventDefault(); look(); };
the("print").onclick = () => window.print();
for (const name of ["dragover", "dragleave", "drop"]) {
  addEventListener(name, e => {
    e.preventDefault();
    the("pick").classList.toggle("over", name === "dragover");
    if (name === "drop" && e.dataTransfer) check([...e.dataTransfer.files]);
  });
}
window.ready = startWorker();
speak();
