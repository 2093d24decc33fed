// chromium.mjs: a headless Chromium over its debugging pipe. No package is needed.
import { spawn } from 'child_process';
import { existsSync, mkdtempSync, rmSync, writeFileSync } from 'fs';
import { tmpdir } from 'os';

const program = ['/usr/lib/chromium/chromium', '/usr/bin/chromium', '/usr/bin/google-chrome'].find(existsSync);
const flags = ['--headless', '--hide-scrollbars', '--no-sandbox', '--disable-gpu', '--no-first-run', '--disable-background-networking', '--disable-component-update', '--remote-debugging-pipe'];

export async function start() {
  const profile = mkdtempSync(tmpdir() + '/chromium-');
  const child = spawn(program, [...flags, '--user-data-dir=' + profile], { stdio: ['ignore', 'ignore', 'ignore', 'pipe', 'pipe'] });
  process.on('exit', () => child.kill());
  const waits = new Map(), heard = [];
  let kept = Buffer.alloc(0), next = 1;
  child.stdio[4].on('data', data => {
    kept = Buffer.concat([kept, data]);
    for (let at; (at = kept.indexOf(0)) >= 0; kept = kept.subarray(at + 1)) {
      const said = JSON.parse(kept.subarray(0, at));
      if (!said.id) { heard.push(said); continue; }
      const wait = waits.get(said.id);
      waits.delete(said.id);
      if (said.error) wait.no(new Error(JSON.stringify(said.error)));
      else wait.yes(said.result);
    }
  });
  const ask = (method, params = {}, sessionId) => new Promise((yes, no) => {
    waits.set(next, { yes, no });
    child.stdio[3].write(JSON.stringify({ id: next++, method, params, sessionId }) + '\0');
  });
  const { product } = await ask('Browser.getVersion');
  const { targetId } = await ask('Target.createTarget', { url: 'about:blank' });
  const { sessionId } = await ask('Target.attachToTarget', { targetId, flatten: true });
  const at = (method, params) => ask(method, params, sessionId);
  for (const part of ['Page', 'Runtime', 'Log', 'Network', 'DOM']) await at(part + '.enable');
  return {
    name: product,
    async size(width, height) { await at('Emulation.setDeviceMetricsOverride', { width, height, deviceScaleFactor: 1, mobile: width < 600 }); },
    async open(url) { await at('Page.navigate', { url }); },
    async value(expression) {
      const got = await at('Runtime.evaluate', { expression, awaitPromise: true, returnByValue: true });
      if (got.exceptionDetails) throw new Error(JSON.stringify(got.exceptionDetails).slice(0, 800));
      return got.result.value;
    },
    async choose(selector, files) {
      const { root } = await at('DOM.getDocument', {});
      const { nodeId } = await at('DOM.querySelector', { nodeId: root.nodeId, selector });
      await at('DOM.setFileInputFiles', { files, nodeId });
    },
    async press(key, code) {
      for (const type of ['keyDown', 'keyUp']) await at('Input.dispatchKeyEvent', { type, key, code: key, windowsVirtualKeyCode: code, ...(key === 'Enter' && type === 'keyDown' ? { text: '\r' } : {}) });
    },
    async media(features, media = '') { await at('Emulation.setEmulatedMedia', { media, features }); },
    async picture(file) {
      const { data } = await at('Page.captureScreenshot', { format: 'png', captureBeyondViewport: true });
      writeFileSync(file, Buffer.from(data, 'base64'));
    },
    async tree() { return (await at('Accessibility.getFullAXTree')).nodes; },
    requests: () => heard.filter(it => it.method === 'Network.requestWillBeSent').map(it => it.params.request.url),
    faults: () => heard.filter(it => it.method === 'Log.entryAdded' || it.method === 'Runtime.exceptionThrown').map(it => JSON.stringify(it.params).slice(0, 300)),
    async end() { await ask('Browser.close').catch(() => {}); await new Promise(yes => child.once('close', yes)); rmSync(profile, { recursive: true, force: true }); },
  };
}
