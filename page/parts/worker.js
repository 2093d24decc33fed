// The worker: it holds the module and the record's bytes, and passes on what the module answers of them.
"use strict";
const ROOM = 1 << 20; // bytes for what a call writes; more is taken where a call asks for it
const MOST_ROOM = 1 << 26;
const HEAD = 1 << 20; // the lines of a plan take less than this
const STEP = 4 << 20; // bytes read at a time
const MOST = 1 << 30; // bytes of a file
const LINE = 16384; // bytes of a line that are shown
let module, exports, text, room;

// Bytes of the module's memory. They are looked up anew after each call, which may make the memory longer.
const bytesAt = (at, count) => new Uint8Array(exports.memory.buffer, Number(at), Number(count));
const numberAt = at => Number(new DataView(exports.memory.buffer).getBigUint64(Number(at), true));

// Memory for this script alone. The module's heap takes its own by the same instruction.
function take(count) {
  const pages = Math.ceil(count / 65536) || 1;
  let before;
  try { before = exports.memory.grow(BigInt(pages)); } catch (e) { if (!(e instanceof TypeError)) throw e; before = exports.memory.grow(pages); }
  return BigInt(before) * 65536n;
}

// Room for what a call writes, and behind it the two numbers that it gives back.
function takeRoom(size) {
  room = { at: take(size + 16), size: BigInt(size) };
  room.first = room.at + room.size;
  room.second = room.first + 8n;
}

// A module in which a call was cut off is never used again: each record has one of its own.
function begin() {
  exports = new WebAssembly.Instance(module, {}).exports;
  text = null;
  takeRoom(ROOM);
}

// Each byte as a sign of its own.
function signs(bytes) {
  let all = "";
  for (let at = 0; at < bytes.length; at += 8192) all += String.fromCharCode(...bytes.subarray(at, at + 8192));
  return all;
}

// What a call wrote, where it answers 0. Where its room is too short (4), it is asked again with more.
function written(call) {
  for (;;) {
    const status = call(room.at, room.size, room.first);
    if (status === 0) return signs(bytesAt(room.at, numberAt(room.first)));
    if (status !== 4 || room.size >= MOST_ROOM) return null;
    takeRoom(Number(room.size) * 8);
  }
}

// Judges a known record for so many milliseconds, again and again, so that the browser has compiled what judges before a file
// comes. Says whether each report was the known one.
function tellsKnown({ record, report }, ms) {
  begin();
  const at = take(record.length), count = BigInt(record.length);
  bytesAt(at, count).set(Uint8Array.from(record, sign => sign.charCodeAt(0)));
  for (const end = performance.now() + ms; ;) {
    const status = exports.page_audit(at, count, room.at, room.size, room.first);
    if (status !== 0 || signs(bytesAt(room.at, numberAt(room.first))) !== report) return false;
    if (performance.now() >= end) return true;
  }
}

// What the module is asked. Each answer is looked at by the page alone.
const asks = {
  load({ wasm, known, ms }) {
    module = new WebAssembly.Module(Uint8Array.from(atob(wasm), c => c.charCodeAt(0)));
    return tellsKnown(known, ms);
  },
  audit({ file }) {
    const start = performance.now();
    if (file.size > MOST) return { status: -2, most: MOST };
    begin();
    text = { at: take(file.size), count: BigInt(file.size) };
    const reader = new FileReaderSync();
    for (let done = 0; done < file.size; done += STEP) {
      const piece = new Uint8Array(reader.readAsArrayBuffer(file.slice(done, done + STEP)));
      bytesAt(text.at + BigInt(done), piece.length).set(piece);
      postMessage({ part: Math.min(1, (done + STEP) / file.size) });
    }
    const read = performance.now();
    const digest = exports.page_digest(text.at, text.count, room.at, 64n) ? signs(bytesAt(room.at, 64)) : "";
    const hashed = performance.now();
    postMessage({ guess: 4 * (hashed - read) + 50 });
    const status = exports.page_audit(text.at, text.count, room.at, room.size, room.first);
    const report = signs(bytesAt(room.at, numberAt(room.first)));
    const ms = { read: read - start, hash: hashed - read, judge: performance.now() - hashed };
    return { status, report, digest, size: file.size, ms, memory: exports.memory.buffer.byteLength };
  },
  plan() {
    const front = text.count < HEAD ? text.count : BigInt(HEAD);
    return written((at, size, used) => exports.page_plan(text.at, front, at, size, used));
  },
  seals() {
    return written((at, size, used) => exports.page_seals(text.at, text.count, at, size, used));
  },
  ballot({ number }) {
    return written((at, size, used) => exports.page_ballot(text.at, text.count, number, at, size, used));
  },
  line({ number }) {
    if (!exports.page_line(text.at, text.count, number, room.first, room.second)) return null;
    const start = numberAt(room.first), end = numberAt(room.second);
    return { text: signs(bytesAt(text.at + BigInt(start), Math.min(LINE, end - start))), more: Math.max(0, end - start - LINE) };
  },
};

onmessage = ({ data }) => {
  try { postMessage({ id: data.id, done: asks[data.ask](data) }); }
  catch (e) { postMessage({ id: data.id, failed: String((e && e.message) || e) }); }
};
