// node --experimental-wasm-memory64 compare.js LIBRARY.wasm [PROGRAM]
//
// Compares the library, called as the page calls it, with the program: the status and both texts,
// byte for byte. First it calls with little memory and little room; then it goes through each case of
// the pages, decks and traces with bytes changed at random, and words with slips of every kind, help
// and the version among them. The status is 1 if anything differs.
'use strict';
const fs = require('fs'), path = require('path');
const { spawnSync } = require('child_process');

const top = path.join(__dirname, '../..'), data = path.join(top, 'crates/pages/data');
const [file, program = path.join(top, 'crates/ppsim/out/ppsim')] = process.argv.slice(2);
const RANDOM = 3000;

// ---- the library, by the part of the page's worker that calls it

const script = fs.readFileSync(path.join(__dirname, '../worker.js'), 'utf8');
const calling = script.slice(0, script.indexOf('onmessage ='));
const library = new WebAssembly.Module(fs.readFileSync(file));
const run = new Function('it', `'use strict';${calling}library = it; return run;`)(library);

const { grow } = WebAssembly.Memory.prototype; // node 20 counts a memory's pages by a plain number
WebAssembly.Memory.prototype.grow = function (pages) {
  try { return grow.call(this, pages); } catch { return grow.call(this, Number(pages)); }
};

let same = 0, refused = 0, asked = 0, differ = 0, others = 0;

/** Compares status and both texts. The library refuses the name of a file, which the program reads or
    does not find, and threads. An empty word alone is passed as two, as an empty text has none. */
function compare(words, input) {
  const mine = run(words.length === 1 && !words[0] ? ['', ''] : words, input);
  if (/^ppsim: (no file is read|there are no threads) here/.test(mine.error)) return void others++;
  const its = spawnSync(program, words, { argv0: 'ppsim', input, maxBuffer: 1 << 30 });
  if (its.error && its.error.code !== 'EPIPE') throw its.error; // it need not read its input
  const output = its.stdout.toString(), error = its.stderr.toString();
  if (mine.status === its.status && mine.output === output && mine.error === error) {
    same++;
    refused += mine.status === 2;
    asked += /^(Usage|Options):|^ppsim 1/m.test(output);
  } else if (differ++ < 10) {
    console.log('differs:', words, mine.status, mine.output.slice(0, 200), mine.error);
    console.log('program:', its.status, output.slice(0, 200), error);
  }
}

// ---- the cases of the pages, as crate `pages` reads them

const ESCAPES = { n: '\n', r: '\r', t: '\t' };

/** The bytes of a text in which `\n`, `\r`, `\t` and `\xNN` stand for one byte each, and
    `\(PIECE\)N;` for N times the bytes of PIECE. */
function bytesMeant(text) {
  const whole = text.replace(/\\\((.*?)\\\)(\d+);/g, (it, piece, count) => piece.repeat(count));
  const meant = whole.replace(/\\([nrt]|x[\da-f]{2})/g, (it, code) =>
    ESCAPES[code] ?? String.fromCharCode(parseInt(code.slice(1), 16)));
  return Buffer.from(meant, 'latin1');
}

/** The words of a command line. What stands between two quotes is one word. */
function wordsIn(line) {
  return line.split("'").flatMap((it, n) => n % 2 ? [it] : it.split(/\s+/).filter(Boolean));
}

function comparePage(page) {
  const files = new Map(), folder = path.dirname(page);
  let kind = null, shown = null;
  const read = name => files.get(name) ?? fs.readFileSync(path.join(folder, name), 'latin1');
  const run = (command, text) => {
    const [, line, name] = /^ppsim (.*?)(?: < (\S+))?(?: > \S+)?$/.exec(command);
    const deck = name ? read(name) : line.includes('{}') ? '' : '{}';
    compare(wordsIn(line.replace('{}', () => text)), bytesMeant(deck.replace('{}', () => text)));
  };
  for (const line of fs.readFileSync(page, 'latin1').split('\n')) {
    const command = /^\$ (.*)/.exec(line)?.[1];
    if (line.startsWith('```')) {
      kind = kind === null ? line.slice(3) : null;
      shown = null;
    } else if (kind?.startsWith('each ') && line) {
      const commands = kind.slice(5).replace(/ \[\d+\]$/, '').split(' and ');
      for (const it of commands) run(it, line.split('  ')[0]);
    } else if (!['console', 'either', 'lines'].includes(kind)) {
      continue;
    } else if (command?.startsWith('cat ')) {
      shown = command.slice(4);
      files.set(shown, '');
    } else if (command?.startsWith('ppsim ')) {
      shown = null;
      run(command, '');
    } else if (shown !== null) {
      files.set(shown, `${files.get(shown)}${line}\n`);
    }
  }
}

const PAGES = ['README.md', 'TUTORIAL.md', 'VIEWS.md', 'examples/README.md',
  'examples/exercises/README.md'];

function comparePages() {
  const cases = fs.readdirSync(path.join(data, 'cases')).map(it => `cases/${it}`);
  for (const name of PAGES.concat(cases)) {
    comparePage(path.join(data, name));
  }
}

// ---- decks and traces changed at random

let seed = 1;
function random(n) {
  seed = (Math.imul(seed, 1103515245) + 12345) >>> 0;
  return (seed >>> 8) % n;
}

function changed(bytes) {
  const made = Buffer.from(bytes);
  for (let n = 1 + random(4); n > 0; n--) {
    made[random(made.length)] = random(3) ? 48 + random(8) : random(256);
  }
  return made;
}

/** An order of some steps, now and then one that a machine of 10 processors has not. */
function order() {
  const items = Array.from({ length: 1 + random(6) }, () => {
    const number = random(50) ? random(10) : 16 + random(10);
    return number.toString(8) + (random(2) ? `:${1 + random(12)}` : '');
  });
  return items.join(',');
}

const OPTIONS = {
  barrel: ['turns', 'order', 'until'], dump: ['turns', 'order', 'until'],
  state: ['turns', 'order', 'until'], sessions: ['turns', 'words', 'order', 'until'],
  races: ['turns', 'order'], ends: ['turns'], orders: ['states'], list: [], lint: [],
  test: ['turns', 'order', 'until'],
  memory: ['turns', 'pp', 'first', 'last', 'order'], central: ['turns', 'first', 'last', 'order'],
  steps: ['turns', 'pps', 'ch', 'from', 'to', 'where', 'order', 'until'],
  draw: ['turns', 'from', 'order'], check: ['opened'], threads: ['steps', 'patience'],
};
const NAMES = Object.keys(OPTIONS).filter(it => it !== 'threads');
const CONDITIONS = ['PP00 P=0103', 'PP01 (0302)', 'PP00 STOPPED', 'PP01 HELD', 'CM 20', 'CH05', 'CH05 DCN', 'LOST', 'QUIET', 'PP40 P=1', 'CH5', ''];
const VALUES = {
  turns: () => random(400), states: () => 1 + random(300), order, until: () => CONDITIONS[random(CONDITIONS.length)],
  where: () => CONDITIONS[random(CONDITIONS.length)], pp: () => random(10).toString(8), pps: () => `${random(8)},1`,
  ch: () => '5,1', from: () => random(100), to: () => 100 + random(300), first: () => random(200).toString(8),
  last: () => (200 + random(4000)).toString(8), opened: () => '1,5,13', steps: () => 5, patience: () => 5, times: () => 1, processors: () => 10,
};

/** The words of a command, with some of its options. */
function wordsOf(name) {
  const words = [name];
  for (const option of OPTIONS[name]) {
    if (!['turns', 'states', 'steps', 'patience', 'pp'].includes(option) && random(2)) continue;
    if (option === 'words') { words.push('--words'); continue; }
    const value = String(VALUES[option]()), named = option === 'pps' ? '--pp' : `--${option}`;
    words.push(...(random(5) ? [named, value] : [`${named}=${value}`]));
  }
  if (name !== 'check' && !random(3)) words.push('--processors', random(9) ? '20' : '12');
  if (!random(12)) words.push('-');
  return words;
}

const LETTERS = 'abcdefghijklmnopqrstuvwxyz-=';
const WORDS = ['--help', '-h', '--version', '-V', '--', '-', '', 'help', '--help=1', '--version=', '-hx', '-xh',
  '-Vh', '--words', '--words=', '--words=1', '--turns', '--turns=', '--order', '0:3', '-5', '-t', '--=', '---x',
  '--é', '-é', 'x', '40', '1000000', 'barrel', 'state', '--times', '--no-such-option'];
const any = list => list[random(list.length)];

/** A word with a letter more, less or changed, or with two that are swapped. */
function misspelt(word) {
  const at = random(word.length + 1), rest = word.slice(at), letter = LETTERS[random(LETTERS.length)];
  const swapped = (rest[1] ?? '') + (rest[0] ?? '') + rest.slice(2);
  return word.slice(0, at) + [letter + rest, rest.slice(1), letter + rest.slice(1), swapped][random(4)];
}

/** Words with a slip: one left out, twice, misspelt or of another kind, or an option that may be one
    of another command. */
function slipped(words) {
  const made = [...words], place = random(made.length + 1), kind = random(7);
  if (kind === 0) made.splice(place, 1);
  else if (kind === 1) made.splice(place, 0, made[random(made.length)] ?? '');
  else if (kind === 2) made[place] = misspelt(made[place] ?? '');
  else if (kind === 3) made.splice(place, 0, misspelt(`--${any(Object.keys(VALUES))}`));
  else if (kind === 4) made.splice(place, 0, `--${any(Object.keys(VALUES))}`);
  else made.splice(place, 0, any(WORDS));
  return made;
}

/** Words that ask for help, or begin with no command. */
function oddWords() {
  const parts = [() => any(NAMES), () => misspelt(any(NAMES)), () => any(WORDS), () => 'help'];
  const made = Array.from({ length: random(4) }, () => any(parts)());
  return random(3) ? made : ['help', ...made];
}

function compareRandom() {
  const examples = path.join(data, 'examples'), names = fs.readdirSync(examples);
  const kept = end => names.filter(it => it.endsWith(end))
    .map(it => fs.readFileSync(path.join(examples, it))).filter(it => it.length > 0);
  const decks = kept('.deck'), traces = kept('.text');
  for (let n = 0; n < RANDOM; n++) {
    const words = wordsOf(any(NAMES)), all = words[0] === 'check' ? traces : decks;
    compare(words, random(2) ? changed(any(all)) : any(all));
  }
  const handoff = fs.readFileSync(path.join(examples, 'handoff.deck'));
  for (let n = 0; n < RANDOM; n++) {
    let words = random(8) ? wordsOf(any([...NAMES, 'threads'])) : oddWords();
    for (let slips = 1 + random(3); slips > 0; slips--) words = slipped(words);
    compare(words, handoff);
  }
}

// ---- memory and room at their ends

const KEPT = 0xa5;

/** A call with this much memory and this much room; and whether the memory was given back, and
    nothing else written. */
function squeezed(words, input, memory, room) {
  const { exports } = new WebAssembly.Instance(library);
  exports.memory.grow(BigInt(1024));
  const bytes = new Uint8Array(exports.memory.buffer), view = new DataView(bytes.buffer);
  const aligned = n => Math.ceil(n / 16) * 16, asked = Buffer.from(words.join('\0'));
  const answer = aligned(Number(exports.__heap_base.value)), place = answer + 32;
  const list = place + 16, start = list + asked.length, end = start + input.length;
  const out = aligned(end) + 16, work = aligned(out + room) + 16;
  bytes.fill(KEPT, answer);
  bytes.set(asked, list);
  bytes.set(input, start);
  view.setBigUint64(place, BigInt(work), true);
  view.setBigUint64(place + 8, BigInt(memory), true);
  exports.ppsim_run(...[answer, place, list, asked.length, start, input.length, out, room].map(BigInt));
  const isKept = (from, to) => bytes.subarray(from, to).every(it => it === KEPT);
  const isBack = view.getBigUint64(place, true) === BigInt(work)
    && view.getBigUint64(place + 8, true) === BigInt(memory);
  const isInside = isBack && Buffer.from(bytes.subarray(start, end)).equals(Buffer.from(input))
    && isKept(end, out) && isKept(out + room, work) && isKept(work + memory, bytes.length);
  const [output, error] = [8, 16].map(it => Number(view.getBigUint64(answer + it, true)));
  const status = view.getUint32(answer, true);
  return { status, output, error, isInside, isKept: isKept(out, out + room) };
}

function expect(what, isSo) {
  if (isSo) {
    same++;
  } else {
    differ++;
    console.log('not so:', what);
  }
}

function squeeze() {
  const deck = fs.readFileSync(path.join(data, 'examples/handoff.deck')), ample = 1 << 22;
  const barrel = ['barrel', '--turns', '40'];
  const whole = squeezed(barrel, deck, ample, 4096);
  expect('ample room', whole.status === 0 && whole.isInside);
  for (let room = 0; room < whole.output; room += 7) {
    const { status, output, isInside, isKept } = squeezed(barrel, deck, ample, room);
    expect(`a room of ${room}`, status === 5 && output === whole.output && isInside && isKept);
  }
  const exact = squeezed(barrel, deck, ample, whole.output);
  expect('a room of just the length', exact.status === 0 && exact.isInside);
  const fault = squeezed(['barrel'], deck, ample, 4096);
  expect('words that are refused', fault.status === 2 && fault.output === 0 && fault.error > 0);
  for (let room = 0; room < fault.error; room++) {
    const { status, error, isInside } = squeezed(['barrel'], deck, ample, room);
    expect(`a room of ${room} for a refusal`, status === 2 && error <= room && isInside);
  }
  for (const memory of [0, 16, 32, 64, 1024, 65536]) {
    const { status, isInside } = squeezed(['state', '--turns', '40'], deck, memory, 4096);
    expect(`memory of ${memory}`, status === 4 && isInside);
  }
  const long = '0:999999', little = 1 << 20;
  for (const [order, memory, wanted] of [['0', little, 0], [long, little, 4], [long, ample, 0]]) {
    const it = squeezed([...barrel, '--order', order], deck, memory, 4096);
    expect(`the order ${order} in memory of ${memory}`, it.status === wanted && it.isInside);
  }
  for (const size of [1048576, 1048577, 1500000]) {
    const { status, isInside } = squeezed(['list'], Buffer.alloc(size, '* '), 1 << 24, 4096);
    expect(`a deck of ${size}`, status === (size > 1048576 ? 1 : 0) && isInside);
  }
  for (const words of [['list', 'x.deck'], ['threads', '--steps', '5', '--patience', '5'], [''], ['list', '']]) {
    const { status, output, isInside } = squeezed(words, deck, ample, 64);
    expect(words.join(' '), status === 2 && output === 0 && isInside);
  }
}

squeeze();
comparePages();
compareRandom();
console.log(`library and program: ${same} the same, of them ${refused} refused and ${asked} help; `
  + `${differ} differ; ${others} name files or ask for threads`);
process.exit(differ > 0 ? 1 : 0);
