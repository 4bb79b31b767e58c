// ---- the deck in its editor, and what stands beside the lines of a deck or of a trace

const ROW = 19, MOST_FOUND = 5000; // the height of a line in pixels; characters of what is found
const MOST_LINES = 2000, MOST_INSERTED = 100000; // lines of a part; characters that undo takes back
const /** @type {Record<string, Notes>} */ found = { deck: new Map(), trace: new Map() };
/** The instructions that each line in the editor loads, as listed. */
const /** @type {Map<number, Line[]>} */ instructions = new Map();
/** How many lines come before those in the editor. */
const /** @type {Record<string, number>} */ above = { deck: 0, trace: 0 };
let before = '', after = ''; // the text round the part in the editor
let isLoading = false, /** @type {Uint8Array | undefined} */ explained;
const deckText = () => before + $('deck').value + after;
const linesIn = (/** @type {string} */ text) => text.split(/\n(?!$)/); // the last with its end

/** Puts a part of a deck into the editor. Undo goes back to a deck that had one part, if this has. */
function fill(/** @type {string} */ text, part = 0) {
  const lines = linesIn(text.replace(/\r\n?/g, '\n')), wasPart = before || after;
  const editor = $('deck'), focused = document.activeElement, last = (lines.length - 1) / MOST_LINES;
  const from = above.deck = Math.min(part, Math.floor(last)) * MOST_LINES;
  const shown = lines.slice(from, from + MOST_LINES).join('\n');
  before = lines.slice(0, from).map(it => `${it}\n`).join('');
  after = lines.slice(from + MOST_LINES).map(it => `\n${it}`).join('');
  deck = bytesOf(text); // not explained yet
  listParts(lines.length, from / MOST_LINES);
  if (editor.value === shown) return;
  const canUndo = editor.value && !wasPart && !before && !after
    && Math.max(shown.length, editor.value.length) <= MOST_INSERTED;
  isLoading = true;
  if (canUndo) { editor.focus({ preventScroll: true }); editor.select(); }
  if (!canUndo || !document.execCommand('insertText', false, shown)) editor.value = shown;
  editor.setSelectionRange(0, 0);
  editor.scrollTop = 0;
  /** @type {HTMLElement | null} */ (focused)?.focus({ preventScroll: true });
  isLoading = false;
}

/** Offers the parts of a deck of so many lines. */
function listParts(/** @type {number} */ count, part = 0) {
  $('part').replaceChildren(...Array.from({ length: Math.ceil(count / MOST_LINES) }, (_, n) =>
    new Option(`${n * MOST_LINES + 1} to ${Math.min(count, (n + 1) * MOST_LINES)}`)));
  $('part').selectedIndex = part;
  $('parts').hidden = count <= MOST_LINES;
}

/** Notes findings: the first number of each is its line. */
function noteFound(/** @type {string} */ id, /** @type {string[]} */ findings) {
  const lineOf = (/** @type {string} */ it) => Number(/\d+/.exec(it));
  found[id] = new Map();
  for (const it of findings) found[id].set(lineOf(it), `${found[id].get(lineOf(it)) ?? ''}${it}\n`);
  $(id).ariaInvalid = `${found[id].size > 0}`;
  showRows(id);
}

/** Finds what is wrong in the deck, and what its lines in the editor do, but those at fault: if it
 * has a fault, these lines are listed alone. */
async function explain(/** @type {Answer} */ state, /** @type {Answer} */ { status, output }) {
  const words = /^\d/.test(output) ? output.slice(0, MOST_FOUND).trimEnd() : '', asked = deck;
  $('fault').textContent = words || (state.status > 0 ? faultOf(state) : '');
  if (explained === deck || status === STOPPED) return;
  const lines = /** @type {string[]} */ ($('deck').value.split('\n')), end = above.deck + lines.length;
  const isHere = (/** @type {number} */ line) => line > above.deck && line <= end;
  noteFound('deck', output.split('\n').filter(it => isHere(parseInt(it, 10))));
  const section = before.match(/^[ \t]*PP[ \t]+\d+/gm)?.at(-1) ?? '', isFaulty = state.status !== 0;
  const isBad = (it = '', n = 0) => /^\s*CM/.test(it) || found.deck.has(above.deck + n + 1);
  const sound = [section, ...lines.map((it, n) => (isFaulty && isBad(it, n) ? '' : it))];
  const lineOf = placesOf(sound), input = isFaulty ? bytesOf(sound.join('\n')) : deck;
  const listing = await ask(['list', ...machineWords()], front, input);
  if (listing.status === STOPPED || deck !== asked) return;
  explained = deck;
  instructions.clear();
  const sections = new Set([...lineOf.keys()].map(it => parseInt(it.slice(2), 10)));
  const listed = listing.output.split(/^(?=PP )/m).slice(1);
  for (const it of linesOf(listed.filter(it => sections.has(parseInt(it.slice(3), 10))).join(''))) {
    const line = lineOf.get(it.place), does = it.text.split('* ')[1]?.trimEnd();
    if (line && does) instructions.set(line, [...instructions.get(line) ?? [], { ...it, text: does }]);
  }
}

/** The line that sets each place, as `PP00 P=0105`. The first line is one before the editor's. */
function placesOf(/** @type {string[]} */ lines) {
  const /** @type {Map<string, number>} */ lineOf = new Map();
  let section = '';
  for (const [n, line] of lines.entries()) {
    const [first = '', ...words] = line.replace(/(^|\s)\*.*/, '').trim().split(/\s+/);
    if (first === 'PP') section = words[0]?.padStart(2, '0') ?? '';
    const placeOf = (k = 0) => (parseInt(first, 8) + k).toString(8).padStart(4, '0');
    for (const k of words.keys()) lineOf.set(`PP${section} P=${placeOf(k)}`, above.deck + n);
  }
  return lineOf;
}

/** Shows what there is to say of the lines in sight. */
function showRows(/** @type {string} */ id) {
  const box = $(id), rows = $(`${id}-rows`), count = box.value.split('\n').length;
  const first = Math.floor(box.scrollTop / ROW), most = Math.ceil(box.clientHeight / ROW) + 1;
  const length = Math.min(count - first, most), line = above[id] + first + 1;
  rows.replaceChildren(...Array.from({ length }, (_, n) => rowBeside(id, line + n)));
  rows.parentElement.style.setProperty('--digits', `${above[id] + count}`.length);
  rows.style.setProperty('--hidden', `${box.scrollTop % ROW}px`);
}

/** The number of a line, and its instructions: a click runs to there. */
function rowBeside(/** @type {string} */ id, /** @type {number} */ n) {
  const all = id === 'deck' ? instructions.get(n) ?? [] : [], words = found[id].get(n);
  const lit = all.filter(({ place }) => runsAt(place)), goal = $('target').value;
  const marks = [words && 'bad', lit[0] && 'lit', all.some(it => it.place === goal) && 'stop'];
  const leadTo = (/** @type {string} */ tag, /** @type {object} */ more, place = '') =>
    make(tag, { ...more, onpointerdown: () => place && runTo(place) });
  const steps = all.map(it => leadTo(lit.includes(it) ? 'mark' : 'span',
    { textContent: it.text, title: `Runs to ${it.place}` }, it.place));
  return make('div', { className: marks.filter(Boolean).join(' '), title: words?.trimEnd() ?? '' },
    leadTo('b', { textContent: n }, all[0]?.place), make('div', {}, ...steps));
}
