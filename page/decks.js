// ---- decks: the examples, a reader's own, their storage and the address

const MOST_BYTES = 1048577, MOST_IN_ADDRESS = 32768; // the first is one more than a deck may have
const MOST_OWN = 30, OWN = 'own ', STORED = 'ppsim deck '; // decks kept; before a deck's number
let /** @type {Own[]} */ own = [], chosen = '', saving = 0;
const turn = () => $('turn').valueAsNumber, last = () => Number($('turn').max);
/** The deck of one's own that is in the editor, if it is no example. */
const mine = () => own.find(it => OWN + it.id === chosen);
/** All decks that can be chosen, by name. */
const decks = () => ({ ...EXAMPLES, ...Object.fromEntries(own.map(it => [OWN + it.id, it])) });
const runShown = () => ({ deck: deckText(), processors: processors(), turns: last(),
  turn: turn(), view: view(), order: orderText(list) });

function readStored() {
  try {
    const keys = Object.keys(localStorage).filter(it => it.startsWith(STORED)).sort();
    own = keys.map(it => JSON.parse(localStorage.getItem(it) ?? ''));
    for (const { id } of own.splice(0, own.length - MOST_OWN)) localStorage.removeItem(STORED + id);
  } catch {} // a browser may forbid its storage: then decks last as long as the page
}

/** Keeps the deck in the editor, if it is no example; false if the storage is full or forbidden. */
function keepMine() {
  const it = mine();
  try {
    if (it) localStorage.setItem(STORED + it.id, JSON.stringify(Object.assign(it, runShown())));
    return true;
  } catch { return false; }
}

/** Makes a run one's own, under such a name; one that has the same deck is there already. */
function adopt(/** @type {Run} */ run, name = '') {
  const same = own.find(it => it.deck === run.deck && it.name.startsWith(name));
  const id = Date.now().toString(36).padStart(9, '0') + own.length, first = name || 'my deck';
  const used = own.map(it => it.name), free = [first, ...used.map((_, n) => `${first} ${n + 2}`)];
  if (same) Object.assign(same, run);
  else own.push({ ...run, id, name: free.find(it => !used.includes(it)) ?? first });
  return OWN + (same?.id ?? id);
}

/** Lists the decks of one's own before the examples, the latest first. */
function listDecks() {
  const options = own.map(({ id, name }) => make('option', { value: OWN + id, textContent: name }));
  $('own').replaceChildren(...options.reverse());
  $('own').hidden = !own.length;
  $('example').value = chosen;
  $('about').textContent = $('about').title = EXAMPLES[chosen]?.title ?? '';
}

/** Shows a deck. What stood in the editor stays among one's own, and undo brings it back too. */
function load(/** @type {string} */ choice, /** @type {Run} */ run = decks()[choice]) {
  keepMine();
  fill(run.deck);
  takeRun(choice, run);
}

/** Takes the machine, the list, the length, the turn and the view of the run of a deck.
 * @type {(choice: string, run: Run) => void} */
function takeRun(choice, { processors, order = '', turns, turn = turns, view }) {
  chosen = choice;
  $('processors').value = String(processors) === '20' ? 20 : 10;
  list = orderOf(order) ?? [];
  setLast(Math.trunc(Number(turns)) || 0);
  $('turn').value = Math.trunc(Number(turn)) || 0;
  listDecks();
  renew();
  if (view) choose(view);
}

/** The text in the editor is another; by undo it may be that of another deck. */
function edited(/** @type {InputEvent} */ e) {
  if (isLoading) return;
  const isUndo = e.inputType?.startsWith('history'), all = decks();
  const same = isUndo && Object.keys(all).find(it => all[it].deck === deckText());
  if (same && same !== chosen) return takeRun(same, all[same]);
  if (!before && !after) listParts(linesIn($('deck').value).length);
  if (!mine()) chosen = adopt(runShown(), `my ${chosen}`);
  listDecks();
  renew();
}

async function openFile(/** @type {File | undefined} */ file) {
  if (!file) return;
  const text = await file.slice(0, MOST_BYTES).text(), name = file.name.replace(/\.[^.]*$/, '');
  load(adopt({ ...runShown(), deck: text, order: '' }, name));
}

function saveFile() {
  const href = `data:text/plain;charset=utf-8,${encodeURIComponent(deckText())}`;
  make('a', { href, download: `${(mine()?.name ?? chosen).replaceAll(' ', '_')}.deck` }).click();
}

/** The address keeps the example, or else the deck itself, and the run, the turn, the view and its
 * controls. What is too long for it the storage keeps, under a number that the address has. */
function remember() {
  const { deck, order, ...run } = runShown(), it = mine(), isStored = keepMine();
  const isLong = deck.length + order.length > MOST_IN_ADDRESS;
  const keeps = ['more', ...VIEWS[run.view].keeps ?? []].map($).filter(it => it.value);
  const fits = keeps.filter(it => it.value.length <= MOST_IN_ADDRESS);
  const words = new URLSearchParams(/** @type {any} */ ({
    ...(!it ? { example: chosen } : isLong ? { kept: it.id } : { deck }), ...run,
    ...(order && !isLong && { order }), ...Object.fromEntries(fits.map(it => [it.id, it.value])) }));
  history.replaceState(null, '', isLong && it && !isStored ? '#' : `#${words}`);
  const what = !isLong ? 'copy the trace' : it ? 'save the deck' : 'copy the order';
  $('kept').textContent = !isStored ? 'This browser does not keep the deck: save it.'
    : isLong || fits.length < keeps.length ? `Too long for the address: to share it, ${what}.` : '';
}

/** Shows what the address says, or else the first example. */
function recall() {
  const given = Object.fromEntries(new URLSearchParams(location.hash.slice(1)));
  const example = Object.hasOwn(EXAMPLES, given.example) ? given.example : Object.keys(EXAMPLES)[0];
  const stored = own.find(it => it.id === given.kept);
  const run = /** @type {any} */ ({ processors: 10, turns: 200, ...given });
  for (const id of ['opened', 'trace', 'states', 'pp']) $(id).value = given[id] ?? $(id).defaultValue;
  for (const id of ['left', 'right']) $(id).replaceChildren(new Option(given[id] ?? ''));
  if (stored) load(OWN + stored.id, { ...stored, ...given, deck: stored.deck });
  else if ('deck' in given) load(adopt(run), run);
  else load(example, { ...EXAMPLES[example], ...given, deck: EXAMPLES[example].deck });
  $('more').value = given.more ?? '';
  if (given.kept && !stored) say('The deck of this address is not in this browser: open its file.');
}
