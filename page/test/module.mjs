// module.mjs: the page's module in node, for tests. Each call is over bytes that `give` has put into its memory.
import { readFileSync } from 'fs';

export class Module {
  constructor(file) {
    this.module = new WebAssembly.Module(readFileSync(file));
    const imports = WebAssembly.Module.imports(this.module);
    if (imports.length) throw new Error('it imports ' + JSON.stringify(imports));
    this.renew();
  }
  // a new instance, with no memory of what was before
  renew() {
    this.calls = new WebAssembly.Instance(this.module, {}).exports;
    this.has = 0;
    this.room = 1 << 24;
    this.out = this.take(this.room + 16);
    this.first = this.out + BigInt(this.room);
    this.second = this.first + 8n;
  }
  take(count) {
    const pages = Math.ceil(count / 65536) || 1;
    let before;
    try { before = this.calls.memory.grow(BigInt(pages)); } catch { before = this.calls.memory.grow(pages); }
    return BigInt(before) * 65536n;
  }
  bytes(at, count) { return new Uint8Array(this.calls.memory.buffer, Number(at), Number(count)); }
  number(at) { return Number(new DataView(this.calls.memory.buffer).getBigUint64(Number(at), true)); }
  told() { return Buffer.from(this.bytes(this.out, this.number(this.first))).toString('latin1'); }
  give(bytes) {
    if (bytes.length > this.has) { this.has = bytes.length + 65536; this.text = this.take(this.has); }
    this.bytes(this.text, bytes.length).set(bytes);
    this.count = BigInt(bytes.length);
  }
  audit(room = this.room) {
    const status = this.calls.page_audit(this.text, this.count, this.out, BigInt(room), this.first);
    return { status, report: this.told() };
  }
  digest(room = 64) {
    return this.calls.page_digest(this.text, this.count, this.out, BigInt(room)) ? Buffer.from(this.bytes(this.out, 64)).toString('latin1') : null;
  }
  line(number) {
    if (!this.calls.page_line(this.text, this.count, number, this.first, this.second)) return null;
    const start = this.number(this.first);
    return Buffer.from(this.bytes(this.text + BigInt(start), this.number(this.second) - start)).toString('latin1');
  }
  plan(room = this.room) {
    return { status: this.calls.page_plan(this.text, this.count, this.out, BigInt(room), this.first), lines: this.told() };
  }
  seals(room = this.room) {
    return { status: this.calls.page_seals(this.text, this.count, this.out, BigInt(room), this.first), lines: this.told() };
  }
  ballot(number, room = this.room) {
    return { status: this.calls.page_ballot(this.text, this.count, number, this.out, BigInt(room), this.first), lines: this.told() };
  }
}
