// ---- the views of a run, and their texts

const MOST_ROWS = 2000, ROWS_BEFORE = 500, STEPS_SHOWN = 600, MOST_ENDINGS = 200;
// The steps round the turn, or all, if what is typed chooses among them.
const stepsFrom = () => (typed().length ? 0 : Math.max(0, Math.floor((turn() - 100) / 400) * 400));
const stepsTo = () => (typed().length ? last() : Math.min(last(), stepsFrom() + STEPS_SHOWN));
const endsWords = () => ['ends', '--turns', `${LAST_TURN}`, ...machineWords()];
const statesWords = () => ['--states', $('states').value, ...machineWords()];
/** The words that are typed behind a command; a quote keeps blanks. */
const typed = () => [...$('more').value.matchAll(/'([^']*)'|(\S+)/g)].map(it => it[1] ?? it[2]);
const /** @type {Record<string, View>} */ VIEWS = {
  State: { words: t => overRun('state', t), paint: paintMarked },
  Steps: { words: () => overRun('steps', stepsTo(), '--from', `${stepsFrom()}`),
    paint: ({ output }) => paintLines(output || `No step from turn ${stepsFrom()} on.\n`) },
  Events: { words: () => overRun('barrel', last()), by: back },
  Sessions: { words: () => overRun('sessions', last()), by: back },
  Races: { words: () => overRun('races', last()), by: back, also: endsWords },
  Ends: { words: endsWords, by: back },
  Endings: { words: () => ['orders', ...statesWords()], by: back, paint: paintEndings,
    keeps: ['states'] },
  Compare: { before: () => Promise.all([findEndings(), findEnding()]),
    words: () => sideWords('right'), paint: paintCompared, keeps: ['states', 'left', 'right'] },
  Test: { words: () => wordsOver([], 'test', last()), by: back, paint: paintTest, keeps: ['states'] },
  Memory: { words: t => overRun('memory', t, '--pp', $('pp').value), keeps: ['pp'],
    paint: paintMarked },
  Central: { words: t => overRun('central', t), paint: paintMarked },
  Listing: { words: () => ['list', ...machineWords()] },
  Dump: { words: t => overRun('dump', t) },
  Check: { words: () => ['check', ...($('opened').value ? ['--opened', $('opened').value] : [])],
    input: () => bytesOf($('trace').value), keeps: ['opened', 'trace'] },
  Help: { words: () => ['--help'],
    paint: () => paintParts('Help', () => [$('help').content.cloneNode(true)]) },
};
const view = () => $('views').elements.view.value;
const viewWords = (t = turn()) => [...VIEWS[view()].words(t), ...typed()];

/** The lines of a text, and where each leads. */
function linesOf(text = '') {
  let section = '';
  return text.split(/(?<=\n)/).map(text => {
    section = /^PP (\d+)/.exec(text)?.[1].padStart(2, '0') ?? section;
    const [place] = /^\d{4}(?= +\d{4} )/.exec(text) ?? [];
    const [at = 'none'] = (!place && /^\d{6,}(?= PP)|(?<=FROM )\d{6,}/.exec(text)) || [];
    return { text, at: Number(at), place: section && place ? `PP${section} P=${place}` : '' };
  });
}

let painted = { text: '', from: -1, lines: linesOf('') };
/** Shows the lines of a text, at most so many round the turn; what lies after it is grey. A line
 * that leads somewhere is a button. What is shown already stays, and keeps the focus. */
function paintLines(/** @type {string} */ text) {
  const isShown = painted.text === text, lines = isShown ? painted.lines : linesOf(text);
  const { length } = lines, next = lines.findIndex(({ at }) => at >= turn());
  const middle = (next < 0 ? length : next) - ROWS_BEFORE;
  const from = length > MOST_ROWS ? Math.max(0, middle - middle % ROWS_BEFORE) : 0;
  if (!isShown || painted.from !== from) {
    painted = { text, from, lines };
    const to = Math.min(length, from + MOST_ROWS), rows = lines.slice(from, to).map(rowOf);
    const left = rows.length < length ? `${from} lines before these, ${length - to} after\n` : '';
    $('text').replaceChildren(make('small', { textContent: left }), ...rows);
  }
  markLines(lines.slice(from));
}

function rowOf(/** @type {Line} */ { text, at, place }) {
  const onclick = at >= 0 ? () => go(at + 1) : place ? () => runTo(place)
    : text.startsWith('MAY DIFFER') ? () => choose('Endings') : null;
  return onclick ? buttonOf(text.trimEnd(), onclick) : make('span', { textContent: text });
}

/** Marks the lines of the last turn, or at which processors stand, and greys later ones. */
function markLines(/** @type {Line[]} */ lines) {
  const box = $('text'), hasFocus = box.contains(document.activeElement);
  let before = -1, current = null;
  for (const [n, row] of box.querySelectorAll(':scope > button, :scope > span').entries()) {
    const { at, place } = lines[n], isNow = place ? runsAt(place) : at === turn() - 1;
    if (at >= 0) before = at;
    row.classList.toggle('later', before >= turn());
    row.classList.toggle('now', isNow);
    if (place ? isNow && !current && !hasFocus : before >= 0 && before < turn()) current = row;
  }
  const top = current?.offsetTop - box.offsetTop, end = top + current?.offsetHeight;
  const isSeen = top >= box.scrollTop && end <= box.scrollTop + box.clientHeight;
  if (current && !isSeen) box.scrollTop = top - box.clientHeight / 2;
}

/** Shows these parts, but if they are shown already. */
function paintParts(/** @type {string} */ key, /** @type {() => (Node | string)[]} */ parts) {
  if (painted.text === key && painted.from < 0) return;
  painted = { text: key, from: -1, lines: [] };
  $('text').replaceChildren(...parts());
}

/** The words of a text, each with its place in a memory or in its line, and the space between. */
function wordsOf(/** @type {string} */ text) {
  let section = '';
  return text.split(/(?<=\n)/).flatMap(line => {
    const [, central, place] = /^(CM |)([0-7]{1,6}) /.exec(line) ?? [];
    if (line.startsWith('PP ')) section = line;
    return line.split(/(\s+)/).map((word, n) => {
      const isSpaceOrAddress = n % 2 || line === section || (place && n < (central ? 4 : 2));
      const key = place ? section + central + (parseInt(place, 8) + n / 2) : line.slice(0, 4) + n;
      return { key: isSpaceOrAddress ? '' : key, word };
    });
  });
}

/** A text, with marks where it is not as another. */
function marked(/** @type {string} */ text, /** @type {string} */ before) {
  const old = new Map(wordsOf(before).map(({ key, word }) => [key, word]));
  return text === before ? [text] : wordsOf(text).map(({ key, word }) =>
    (key && old.get(key) !== word ? make('mark', { textContent: word }) : word));
}

/** Marks in a text of this turn what has changed since the turn before.
 * @type {Paint} */
async function paintMarked({ output }, isOld) {
  const before = turn() ? (await ask(viewWords(turn() - 1))).output : output;
  if (isOld()) return;
  paintParts(`${view()} ${before} ${output}`, () =>
    (output ? marked(output, before) : ['All words are 0.']));
}

const MOMENT = 'this moment', TURN_ORDER = 'the turn order, at its end';
let /** @type {{ order: number[], text: string }[]} */ endings = [];

/** Finds the endings, lists them as what can be compared, and says how many there are. */
async function findEndings() {
  const { output } = await ask(VIEWS.Endings.words(0), back);
  const [found, ...texts] = output.split(/^(?=ORDER)/m);
  endings = texts.slice(0, MOST_ENDINGS).map(text =>
    ({ order: orderOf(text.split('\n', 1)[0].slice(6)) ?? [], text }));
  const names = [MOMENT, TURN_ORDER, ...endings.map((_, n) => `ending ${n + 1}`)];
  for (const [id, first] of [['left', TURN_ORDER], ['right', names[3] ?? MOMENT]]) {
    const wanted = names.includes($(id).value) ? $(id).value : first;
    $(id).replaceChildren(...names.map(it => new Option(it, it, false, it === wanted)));
  }
  return found.trimEnd();
}

/** Shows the endings, each with an order, which a click loads, and the words that this order loses.
 * @type {Paint} */
async function paintEndings({ output }, isOld) {
  const found = await findEndings();
  const sessions = await Promise.all(endings.map(({ order }) =>
    ask(wordsOver(order, 'sessions', order.length), back)));
  if (isOld()) return;
  paintParts(`Endings ${output}`, () => [`${found}\n`, ...endings.flatMap(({ order, text }, n) => {
    const [head, ...lines] = text.split('\n'), aside = buttonOf('compare', () => {
      [$('left').value, $('right').value] = [TURN_ORDER, `ending ${n + 1}`];
      choose('Compare');
    }, 'Beside the turn order');
    Object.assign(aside, { className: 'aside', ariaLabel: `Compare ending ${n + 1}` });
    const shown = orderButton(`${n + 1}  ${head}`, order);
    const lost = [...sessions[n].output.matchAll(/^(CH\d+) .* LOST (\d+)$/gm)];
    return [make('div', { className: 'ending' }, shown, aside), make('strong', { className: 'lost',
      textContent: lost.map(([, ch, word]) => `${ch} loses ${word}\n`).join('') }), lines.join('\n')];
  })]);
}

/** A button that shows the run in the order of an ending, at its end. */
const orderButton = (text = '', /** @type {number[]} */ order) => buttonOf(text, () => {
  list = order;
  setLast(order.length + 4 * processors());
  go(order.length);
  say(`The run is in this order now, ${order.length} steps long, and then goes on by turns.`);
}, 'Shows the run in this order');

/** The words of a command over one of the runs that can be compared. */
function sideWords(/** @type {string} */ id, command = 'state') {
  const name = $(id).value, order = endings[parseInt(name.slice(7), 10) - 1]?.order;
  const [steps, to] = order ? [order, order.length]
    : name === TURN_ORDER ? [[], endTurn] : [list, turn()];
  const window = ['--from', `${Math.max(0, to - MOST_DRAWN)}`, '--to', `${to}`];
  return wordsOver(steps, command, to, ...(command === 'draw' ? window : []));
}

/** @type {Paint} */
async function paintCompared(_, isOld) {
  const words = ['state', 'draw'].flatMap(it => [sideWords('left', it), sideWords('right', it)]);
  const texts = (await Promise.all(words.map(it => ask(it)))).map(it => it.output);
  if (isOld()) return;
  const [left, right, one, other] = texts;
  paintParts(`Compare ${texts}`, () => [
    make('p', { textContent: left === right ? 'The same.' : 'What differs is marked.' }),
    make('div', { className: 'two' }, pictureOf(one, 'Left run'), pictureOf(other, 'Right run'),
      make('pre', { ariaLabel: 'Left' }, ...marked(left, right)),
      make('pre', { ariaLabel: 'Right' }, ...marked(right, left)))]);
}

/** Shows how the run by turns meets what the deck expects; if it does, whether each ending does.
 * @type {Paint} */
async function paintTest({ status, output }, isOld) {
  const [task = ''] = /^(?:\*(?![=!]).*\n)+/.exec(deckText()) ?? [];
  const every = status ? null : await ask(['test', '--every-order', ...statesWords()], back);
  if (isOld()) return;
  const text = every && `\nIn every order:\n${every.output || faultOf(every)}`;
  const [all = '', order, one = ''] = text?.split(/^ORDER (.*)\n/m) ?? [];
  paintParts(`Test ${task} ${output} ${text}`, () => [
    make('p', { textContent: task.replace(/^\* ?/gm, '') }), 'In the turn order:\n', output, all,
    order ? orderButton(`ORDER ${order}`, orderOf(order) ?? []) : '', one,
    every?.status === 0 ? 'Right in every order.' : '']);
}
