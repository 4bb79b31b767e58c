// ---- commands, and the workers that run them
// A run of the page is `list`, the processors of its first steps, and then the turns of the barrel.

const $ = (/** @type {string} */ id) => /** @type {any} */ (document.getElementById(id));
/** @type {(tag: string, properties?: object, ...children: (Node | string)[]) => any} */
const make = (tag, properties = {}, ...children) => {
  const made = Object.assign(document.createElement(tag), properties);
  made.append(...children);
  return made;
};
const buttonOf = (textContent = '', onclick = () => {}, title = '') =>
  make('button', { type: 'button', textContent, onclick, title });
const bytesOf = (/** @type {string} */ text) => new TextEncoder().encode(text);
const LAST_TURN = 999999, PATIENCE = 400, SIGN_AFTER = 200; // milliseconds
const MOST_KEPT = 3e7, MOST_ANSWERS = 500; // characters of answers, and how many are kept
const STOPPED = -1; // a status, beside those of the program
let /** @type {WebAssembly.Module} */ library, source = '', deck = new Uint8Array(), kept = 0;
let /** @type {number[]} */ list = [];
const answers = new Map();

/** A worker. What it is asked it answers in turn; `stop` ends it, and another begins. */
function engine() {
  let /** @type {Worker} */ worker, /** @type {Promise<Answer>} */ latest, since = 0;
  const /** @type {((answer: Answer) => void)[]} */ waiting = [];
  const answer = (/** @type {Answer} */ it) => {
    waiting.shift()?.(it);
    if (!waiting.length) showWork();
  };
  const start = () => {
    source ||= URL.createObjectURL(new Blob([WORKER], { type: 'text/javascript' }));
    const it = worker = new Worker(source);
    it.onmessage = ({ data }) => { if (it === worker) answer(data); };
    it.onerror = e => stop(e.message);
    it.postMessage({ module: library });
  };
  const stop = (error = 'stopped') => {
    worker.terminate();
    start();
    while (waiting.length) answer({ status: STOPPED, output: '', error });
  };
  const run = (/** @type {string[]} */ words, /** @type {Uint8Array} */ input) => {
    if (!waiting.length) [since] = [performance.now(), setTimeout(showWork, SIGN_AFTER)];
    worker.postMessage({ words, input });
    return latest = new Promise(answered => { waiting.push(answered); });
  };
  const worksFor = () => (waiting.length ? performance.now() - since : 0);
  return { start, stop, run, worksFor, free: () => latest };
}

/** One for what goes with the turn, one for what is asked of whole runs, and may take long. */
const front = engine(), back = engine();
const showWork = () => Object.assign($('busy'),
  { hidden: Math.max(front.worksFor(), back.worksFor()) < SIGN_AFTER - 10 });
/** Stops these workers, if they have been at work for so long. */
const stopWork = (engines = [front, back], longest = PATIENCE) =>
  engines.forEach(it => { if (it.worksFor() > longest) it.stop(); });

/** What a command answers of the deck, kept until the deck changes. */
function ask(/** @type {string[]} */ words, by = front, input = deck) {
  const key = words.join(' ');
  if (input !== deck) return by.run(words, input);
  if (answers.has(key)) return /** @type {Promise<Answer>} */ (answers.get(key));
  const answer = by.run(words, input);
  answers.set(key, answer);
  answer.then(({ status, output }) => {
    if (answers.get(key) === answer && status === STOPPED) answers.delete(key);
    if ((kept += output.length) > MOST_KEPT || answers.size > MOST_ANSWERS) forget();
  });
  return answer;
}

const forget = () => { answers.clear(); kept = 0; };
/** A fault in the words of the program, without its name. */
const faultOf = (/** @type {Answer} */ { error }) => error.replace(/^ppsim: /, '').trimEnd();

const processors = () => Number($('processors').value);
/** The numbers of the machine's processors. */
const numbers = () => [...Array(processors()).keys()].map(n => (n < 10 ? n : n + 6));
/** The processor that makes the step after this many. */
const stepper = (/** @type {number} */ t) => list[t] ?? numbers()[(t - list.length) % processors()];

/** The first steps of a list in the form of `--order`. */
function orderText(/** @type {number[]} */ steps, length = steps.length) {
  const items = [], end = Math.min(length, steps.length);
  for (let from = 0, to = 0; from < end; from = to) {
    while (to < end && steps[to] === steps[from]) to++;
    items.push(steps[from].toString(8) + (to - from > 1 ? `:${to - from}` : ''));
  }
  return items.join(',');
}

/** The list that such a text stands for, or nothing if it is none of this machine's. */
function orderOf(/** @type {string} */ text) {
  const machine = numbers();
  let count = 0;
  const steps = text.split(',').flatMap(item => {
    const [all, pp, times = 1] = /^\s*([0-7]{1,2})(?::(\d{1,6}))?\s*$/.exec(item) ?? [];
    count += Number(times);
    return all && count <= LAST_TURN ? Array(Number(times)).fill(parseInt(pp, 8)) : NaN;
  });
  return !text.trim() ? [] : steps.every(it => machine.includes(it)) ? steps : null;
}

/** The words of a command over so many turns of the run with this list.
 * @type {(steps: number[], name: string, turns: number, ...more: string[]) => string[]} */
function wordsOver(steps, name, turns, ...more) {
  const order = orderText(steps, turns), listed = order ? ['--order', order] : [];
  return [name, '--turns', `${turns}`, ...more, ...listed, ...machineWords()];
}
const machineWords = () => (processors() === 20 ? ['--processors', '20'] : []);
/** @type {(name: string, turns: number, ...more: string[]) => string[]} */
const overRun = (...words) => wordsOver(list, ...words);
