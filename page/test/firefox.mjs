// firefox.mjs: a headless Firefox over WebDriver BiDi. In node 20 it wants --experimental-websocket.
import { spawn } from 'child_process';
import { existsSync, mkdtempSync, rmSync, writeFileSync } from 'fs';
import { tmpdir } from 'os';

const program = ['/usr/lib/firefox-esr/firefox-esr', '/usr/bin/firefox-esr', '/usr/bin/firefox'].find(existsSync);

export async function start() {
  const profile = mkdtempSync(tmpdir() + '/firefox-');
  const child = spawn(program, ['--headless', '--no-remote', '--profile', profile, '--remote-debugging-port', '0', 'about:blank'], { stdio: ['ignore', 'ignore', 'pipe'], env: { ...process.env, HOME: profile, MOZ_CRASHREPORTER_DISABLE: '1' } });
  process.on('exit', () => child.kill());
  const address = await new Promise(yes => { let said = ''; child.stderr.on('data', data => { said += data; const found = said.match(/listening on (ws:\S+)/); if (found) yes(found[1]); }); });
  const socket = new WebSocket(address + '/session');
  await new Promise(yes => socket.addEventListener('open', yes));
  const waits = new Map(), heard = [];
  let next = 1;
  socket.addEventListener('message', event => {
    const said = JSON.parse(event.data), wait = waits.get(said.id);
    if (!wait) { heard.push(said); return; }
    waits.delete(said.id);
    if (said.type === 'error') wait.no(new Error(said.error + ': ' + said.message));
    else wait.yes(said.result);
  });
  const ask = (method, params = {}) => new Promise((yes, no) => { waits.set(next, { yes, no }); socket.send(JSON.stringify({ id: next++, method, params })); });
  const made = await ask('session.new', { capabilities: {} });
  await ask('session.subscribe', { events: ['network.beforeRequestSent', 'log.entryAdded'] });
  const context = (await ask('browsingContext.getTree')).contexts[0].context;
  return {
    name: made.capabilities.browserName + '/' + made.capabilities.browserVersion,
    async size(width, height) { await ask('browsingContext.setViewport', { context, viewport: { width, height } }); },
    async open(url) { await ask('browsingContext.navigate', { context, url, wait: 'complete' }); },
    async value(expression) {
      const got = await ask('script.evaluate', { expression: `Promise.resolve(${expression}).then(it => JSON.stringify(it))`, target: { context }, awaitPromise: true });
      if (got.type === 'exception') throw new Error(got.exceptionDetails.text);
      return got.result.value === undefined ? undefined : JSON.parse(got.result.value);
    },
    async choose(selector, files) {
      const { nodes } = await ask('browsingContext.locateNodes', { context, locator: { type: 'css', value: selector } });
      await ask('input.setFiles', { context, element: { sharedId: nodes[0].sharedId }, files });
    },
    async picture(file) {
      const { data } = await ask('browsingContext.captureScreenshot', { context, origin: 'document' });
      writeFileSync(file, Buffer.from(data, 'base64'));
    },
    requests: () => heard.filter(it => it.method === 'network.beforeRequestSent').map(it => it.params.request.url),
    faults: () => heard.filter(it => it.method === 'log.entryAdded' && it.params.level === 'error').map(it => JSON.stringify(it.params).slice(0, 300)),
    async end() { socket.close(); child.kill(); await new Promise(yes => child.once('close', yes)); rmSync(profile, { recursive: true, force: true }); },
  };
}
