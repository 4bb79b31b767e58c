// The browsers that drive.js drives, each by its own protocol, with the same calls.
'use strict';
const fs = require('fs'), os = require('os'), path = require('path');
const { spawn } = require('child_process');

/** A browser process, and a connection to it once it has said at which address it listens. */
async function start(program, words, profile, address) {
  const process = spawn(program, words(profile), { stdio: ['ignore', 'ignore', 'pipe'] });
  const url = await new Promise((done, failed) => {
    let said = '';
    process.once('exit', () => failed(new Error(`${program} has ended`)));
    process.stderr.on('data', it => {
      const found = address.exec(said += it);
      if (found) done(found[1]);
    });
  });
  const close = () => new Promise(done => {
    process.removeAllListeners('exit');
    process.once('exit', () => {
      fs.rmSync(profile, { recursive: true, force: true, maxRetries: 5 });
      done();
    });
    process.kill();
  });
  return { url, close };
}

/** A connection on which each command has a number, and its answer the same. */
async function connect(url, heard) {
  const socket = new WebSocket(url), waiting = new Map();
  await new Promise((done, failed) => { [socket.onopen, socket.onerror] = [done, failed]; });
  socket.onmessage = ({ data }) => {
    const { id, result, error, message, method, params } = JSON.parse(data);
    if (id === undefined) return heard(method, params);
    const [done, failed] = waiting.get(id);
    waiting.delete(id);
    if (error) failed(new Error(message ?? error.message));
    else done(result);
  };
  return (method, params = {}) => new Promise((done, failed) => {
    const id = waiting.size ? Math.max(...waiting.keys()) + 1 : 1;
    waiting.set(id, [done, failed]);
    socket.send(JSON.stringify({ id, method, params }));
  });
}

const profileOf = name => fs.mkdtempSync(path.join(os.tmpdir(), `${name}-`));

/** Chromium, by its DevTools protocol. */
async function chromium() {
  const complaints = [], { url, close } = await start('chromium', profile => ['--headless=new',
    '--no-sandbox', '--disable-gpu', '--remote-debugging-port=0', `--user-data-dir=${profile}`,
    'about:blank'], profileOf('chromium'), /DevTools listening on (ws:\S+)/);
  const targets = await (await fetch(`http://127.0.0.1:${new URL(url).port}/json/list`)).json();
  const page = targets.find(it => it.type === 'page').webSocketDebuggerUrl;
  const send = await connect(page, (method, params) => {
    if (method === 'Runtime.exceptionThrown') {
      complaints.push(params.exceptionDetails.exception?.description);
    } else if (method === 'Runtime.consoleAPICalled') {
      complaints.push(params.args.map(it => it.value).join(' '));
    } else if (method === 'Log.entryAdded' && params.entry.level === 'error') {
      complaints.push(params.entry.text);
    }
  });
  for (const domain of ['Page', 'Runtime', 'Log', 'Accessibility']) await send(`${domain}.enable`);
  const codes = { ' ': 'Space', Enter: 'Enter' };
  return {
    name: 'Chromium', hasMedia: true, complaints, close,
    open: async url => {
      await send('Page.navigate', { url: 'about:blank' });
      await send('Page.navigate', { url });
    },
    reload: () => send('Page.reload'),
    before: source => send('Page.addScriptToEvaluateOnNewDocument', { source }),
    value: async expression => {
      const asked = { expression, awaitPromise: true, returnByValue: true };
      const { result, exceptionDetails } = await send('Runtime.evaluate', asked);
      if (exceptionDetails) throw new Error(exceptionDetails.exception?.description ?? expression);
      return result.value;
    },
    screen: async ({ width, height, scheme = 'light', forced = 'none' }) => {
      await send('Emulation.setDeviceMetricsOverride', { width, height, deviceScaleFactor: 1, mobile: false });
      await send('Emulation.setEmulatedMedia', { features: [
        { name: 'prefers-color-scheme', value: scheme }, { name: 'forced-colors', value: forced }] });
    },
    picture: async () => (await send('Page.captureScreenshot', { format: 'png' })).data,
    paper: async () => (await send('Page.printToPDF', { printBackground: true })).data,
    press: async (key, { shift = false, ctrl = false } = {}) => {
      const digit = /^\d$/.test(key), modifiers = (shift ? 8 : 0) + (ctrl ? 2 : 0);
      const code = codes[key] ?? (digit ? `Digit${key}` : key.length === 1 ? `Key${key.toUpperCase()}` : key);
      const text = ctrl || key.length > 1 && key !== 'Enter' ? undefined : key === 'Enter' ? '\r' : key;
      const asked = { key, code, modifiers, text,
        windowsVirtualKeyCode: key === 'Enter' ? 13 : key.toUpperCase().charCodeAt(0),
        ...(ctrl && key === 'z' && { commands: ['undo'] }) };
      if (key.length > 1 && key !== 'Enter') delete asked.windowsVirtualKeyCode;
      await send('Input.dispatchKeyEvent', { type: text ? 'keyDown' : 'rawKeyDown', ...asked });
      await send('Input.dispatchKeyEvent', { type: 'keyUp', ...asked, text: undefined });
    },
    type: text => send('Input.insertText', { text }),
    mouse: (what, x, y) => send('Input.dispatchMouseEvent', { type: `mouse${what}`, x, y,
      button: 'left', buttons: what === 'Released' ? 0 : 1, clickCount: 1 }),
    /** The role and the name of each control, as for a screen reader. */
    controls: async () => (await send('Accessibility.getFullAXTree')).nodes.filter(it => !it.ignored)
      .map(({ role, name }) => ({ role: role?.value, name: name?.value })),
  };
}

/** A value of the page, out of the form that WebDriver gives it. */
function plain({ type, value }) {
  if (type === 'array') return value.map(plain);
  if (type === 'object') return Object.fromEntries(value.map(([key, it]) => [key, plain(it)]));
  return type === 'number' ? Number(value) : value;
}

/** Firefox, by WebDriver BiDi. */
async function firefox() {
  const complaints = [], profile = profileOf('firefox');
  const settings = { 'browser.shell.checkDefaultBrowser': false, 'app.update.auto': false,
    'datareporting.policy.dataSubmissionEnabled': false };
  fs.writeFileSync(path.join(profile, 'user.js'), Object.entries(settings).map(([name, it]) =>
    `user_pref("${name}", ${it});\n`).join(''));
  const { url, close } = await start('firefox-esr', it => ['--headless', '--no-remote',
    '--remote-debugging-port=0', '--profile', it], profile, /WebDriver BiDi listening on (ws:\S+)/);
  const send = await connect(`${url}/session`, (method, { level, text }) => {
    if (method === 'log.entryAdded' && level !== 'debug') complaints.push(text);
  });
  await send('session.new', { capabilities: {} });
  await send('session.subscribe', { events: ['log.entryAdded'] });
  const { contexts: [{ context }] } = await send('browsingContext.getTree');
  const keys = { ArrowLeft: '\uE012', ArrowRight: '\uE014', Home: '\uE011', End: '\uE010',
    Enter: '\uE006', Tab: '\uE004' };
  const act = (type, actions) => send('input.performActions', { context,
    actions: [{ type, id: type, actions }] });
  const strokes = key => ['keyDown', 'keyUp'].map(type => ({ type, value: keys[key] ?? key }));
  return {
    name: 'Firefox', complaints, close,
    open: async url => {
      await send('browsingContext.navigate', { context, url: 'about:blank', wait: 'complete' });
      await send('browsingContext.navigate', { context, url, wait: 'complete' });
    },
    reload: () => send('browsingContext.reload', { context, wait: 'complete' }),
    before: source => send('script.addPreloadScript', { functionDeclaration: `() => { ${source} }` }),
    value: async expression => {
      const asked = { expression, target: { context }, awaitPromise: true };
      const { result, exceptionDetails } = await send('script.evaluate', asked);
      if (exceptionDetails) throw new Error(`${exceptionDetails.text}: ${expression}`);
      return plain(result);
    },
    screen: ({ width, height }) =>
      send('browsingContext.setViewport', { context, viewport: { width, height } }),
    picture: async () => (await send('browsingContext.captureScreenshot', { context })).data,
    paper: async () => (await send('browsingContext.print', { context, background: true })).data,
    press: (key, { shift = false, ctrl = false } = {}) => {
      const held = [...(shift ? ['\uE008'] : []), ...(ctrl ? ['\uE009'] : [])];
      return act('key', [...held.map(value => ({ type: 'keyDown', value })), ...strokes(key),
        ...held.map(value => ({ type: 'keyUp', value }))]);
    },
    type: text => act('key', [...text].flatMap(it => strokes(it === '\n' ? 'Enter' : it))),
    mouse: (what, x, y) => act('pointer', [
      { type: 'pointerMove', x: Math.round(x), y: Math.round(y) },
      ...(what === 'Moved' ? [] : [{ type: what === 'Pressed' ? 'pointerDown' : 'pointerUp', button: 0 }])]),
  };
}

module.exports = { chromium, firefox };
