// ---- showing, and what a reader does

let shows = 0, choosing = 0, /** @type {Promise<void> | null} */ next = null;

/** Shows all of it, once the worker is free; what has been at work for long is not waited for. */
function showSoon() {
  $('at').textContent = turn();
  moveCursor();
  stopWork([front]);
  next ||= Promise.resolve(front.free()).then(() => { next = null; show(); });
}

async function show() {
  const it = ++shows, of = deck, isOld = () => it !== shows || deck !== of;
  const { before, by, input, also, paint } = VIEWS[view()];
  clearTimeout(saving);
  const first = [overRun('state', turn()), ['lint', ...machineWords()]].map(it => ask(it));
  const drawing = drawingWords(), picture = ask(drawing), [state, lint] = await Promise.all(first);
  if (isOld()) return;
  showHand(state);
  picture.then(it => { if (!isOld()) draw(drawing, it); });
  await explain(state, lint);
  await before?.();
  if (isOld()) return;
  showRows('deck');
  saving = setTimeout(() => { remember(); findEnding(); }, 300);
  const asked = viewWords(), quoted = asked.map(it => (/[^\w:,.-]/.test(it) ? `'${it}'` : it));
  $('words').textContent = `ppsim ${quoted.join(' ')}`;
  const answer = await ask(asked, by, input?.()), { status, output } = answer;
  const below = also ? `\nBy turns:\n${(await ask(also(), back)).output}` : '';
  const isWritten = status === 0 || output !== '';
  if (isOld()) return;
  const fault = faultOf(answer);
  if (input) noteFound('trace', fault.match(/^line \d+.*/g) ?? []);
  $('text').classList.toggle('bad', !isWritten);
  if (!isWritten) paintParts(`fault ${fault}`, () => [fault]);
  else if (paint) paint(answer, isOld);
  else paintLines(output + below);
}

/** The deck, the machine or the length of the run has changed. */
function renew() {
  deck = bytesOf(deckText());
  forget();
  drawn = null;
  [endings, endTurn] = [[], LAST_TURN];
  stopWork();
  for (const it of $('pp').options) it.hidden = !numbers().includes(parseInt(it.value, 8));
  if (!$('pp').value || $('pp').selectedOptions[0].hidden) $('pp').value = 0;
  if (list.some(it => !numbers().includes(it))) list = [];
  say('');
  showSoon();
}

/** Takes the length of the run, or says what it may be. */
async function takeLast() {
  const { valueAsNumber, validity } = $('last'), wasAtEnd = turn() === last();
  if (!validity.valid) return say('Turns are a whole number from 0 to 999999 (decimal).');
  setLast(valueAsNumber);
  say('');
  go(wasAtEnd ? last() : turn());
  if (wasAtEnd) await findEnding();
  if (wasAtEnd && !list.length && turn() === last()) go(Math.min(endTurn, last()));
}

/** Takes the first events of the run, as many whole lines as the address has room for. */
const takeEvents = () => ask(overRun('barrel', last()), back).then(({ output }) => {
  $('trace').value = output.slice(0, MOST_IN_ADDRESS).replace(/.*$/, '');
  showSoon();
});

function choose(/** @type {string} */ name = view()) {
  $('views').elements.view.value = name;
  $('more').value = '';
  paintParts('', () => []);
  return view() === 'Check' && !$('trace').value ? takeEvents() : showSoon();
}

function press(/** @type {any} */ e) {
  const sideways = e.key === 'ArrowRight' ? 1 : e.key === 'ArrowLeft' ? -1 : 0;
  const isTyping = e.target.matches('textarea, select, input:not([type=range], [type=radio])');
  const [, digit] = /^(?:Digit|Numpad)(\d)$/.exec(e.code) ?? [], isTab = e.target.type === 'radio';
  if (isTyping || e.ctrlKey || e.altKey || e.metaKey || (sideways && isTab)) return;
  if (sideways) go(turn() + sideways * (e.shiftKey ? processors() : 1));
  else if (digit) stepBy(Number(digit) + (e.shiftKey ? 16 : 0));
  else if (e.key === 'Home') go(0);
  else if (e.key === 'End') go(last());
  else if (e.key === ' ' && !e.target.matches('button')) play();
  else return;
  e.preventDefault();
}

const drop = (/** @type {any} */ e) => { e.preventDefault(); openFile(e.dataTransfer.files[0]); };
/** What each control of the page does, by its event. */
const DOES = {
  click: {
    play, copy: () => copyText('The order', orderText(list, turn())), save: saveFile,
    link: () => { remember(); copyText('The address of this moment', location.href); },
    skip: () => $('text').focus(), open: () => $('file').click(), take: takeEvents,
    load: () => go(0), back: () => go(turn() - 1), turnOn: () => go(turn() + 1),
    roundOn: () => go(turn() + processors()), stop: () => stopWork([front, back], 0),
    steps: (/** @type {any} */ e) => stepBy(parseInt(e.target.value, 8)),
    tabs: (/** @type {any} */ e) => // by a mouse: keys go to the text
      e.pointerType && e.target.type === 'radio' && $('text').focus({ preventScroll: true }),
  },
  change: { file: () => openFile($('file').files[0]), last: takeLast, order: typeOrder,
    processors: renew, more: showSoon, tabs: () => choose(),
    part: () => { fill(deckText(), $('part').selectedIndex); showSoon(); },
    example: (/** @type {any} */ { target: it }) => { // by keys once its name is typed
      clearTimeout(choosing);
      choosing = setTimeout(load, it.matches(':focus-visible') ? 700 : 0, it.value);
    } },
  input: { deck: edited, turn: showSoon, trace: showSoon, opened: showSoon,
    pp: showSoon, states: showSoon, left: showSoon, right: showSoon },
  scroll: { deck: () => showRows('deck'), trace: () => showRows('trace'),
    drawing: () => keepNames() },
  pointerdown: { drawing: drag }, pointermove: { drawing: drag },
  submit: { goal: () => runTo($('target').value.trim()) },
};

async function begin() {
  const deflated = /** @type {any} */ (Uint8Array).fromBase64(MODULE, { alphabet: 'base64url' });
  const plain = new Blob([deflated]).stream().pipeThrough(new DecompressionStream('deflate'));
  library = await WebAssembly.compile(await new Response(plain).arrayBuffer());
  for (const it of [front, back]) it.start();
  for (const [event, all] of Object.entries(DOES)) {
    for (const [id, does] of Object.entries(all)) $(id).addEventListener(event, does);
  }
  readStored();
  recall();
  Object.assign(window, { onkeydown: press, onhashchange: recall, onpagehide: remember,
    onafterprint: () => keepNames(), onresize: () => showRows('deck'),
    onbeforeprint: () => { $('paper').textContent = deckText(); keepNames(0); },
    onsubmit: (/** @type {Event} */ e) => e.preventDefault(), ondragover: drop, ondrop: drop });
}

begin().catch(e => { $('text').textContent = `This page needs a browser of late 2025: ${e}`; });
