// ---- moving through a run, and making its steps by hand

/** The line of each processor shown at the turn, by its two digits. */
const /** @type {Map<string, string>} */ standing = new Map();
let timer = 0, endTurn = LAST_TURN; // where the run by turns ends, as far as that is known
const say = (/** @type {string} */ text) => { $('ran').textContent = text; };
const copyText = (what = '', text = '') => navigator.clipboard.writeText(text)
  .then(() => say(`${what} is copied.`), fault => say(`Not copied: ${fault}`));
const isRunning = (/** @type {string} */ line) => line.includes(' RUNNING ');
const isHeld = (/** @type {string} */ line) => line.includes(' HELD ');
/** Whether a processor that runs stands at this place: `PP00 P=0105`. */
const runsAt = (/** @type {string} */ place) =>
  !!place && [...standing.values()].some(it => it.startsWith(place) && isRunning(it));
const setLast = (to = 0) => { $('last').value = $('turn').max = Math.max(0, Math.min(to, LAST_TURN)); };

/** Goes to after so many steps; past the end the run becomes longer. */
function go(/** @type {number} */ to) {
  if (to > last()) setLast(to);
  $('turn').value = to;
  showSoon();
}

/** One step of this processor comes next, in place of what the list has after the cursor. */
function stepBy(/** @type {number} */ number) {
  const t = turn();
  if (!numbers().includes(number) || t >= LAST_TURN) return;
  if (t === list.length || stepper(t) !== number) {
    list = [...Array.from({ length: t }, (_, n) => stepper(n)), number];
    stopWork([back]);
  }
  go(t + 1);
}

/** The list is what was typed. A cursor within the old list goes to the end of the new one. */
function typeOrder() {
  const steps = orderOf($('order').value), at = turn() <= list.length ? 0 : turn();
  $('order').ariaInvalid = `${!steps}`;
  if (!steps) return say('An order is a list of processors, as 0:3,1: three steps of 0, one of 1.');
  list = steps;
  go(Math.max(at, steps.length));
}

/** The first step between two turns that comes to where a condition says: one held was there. */
async function findStep(condition = '', from = 0, end = LAST_TURN) {
  const place = Number(/^PP\d+ P=(\d+)$/.exec(condition)?.[1]);
  const comes = (/** @type {string} */ it) => !isHeld(it) || Number(it.slice(12, 16)) !== place;
  for (let more = 1000; ; more *= 10) {
    const to = Math.min(end, from + more), words = ['--from', `${from}`, '--where', condition];
    const answer = await ask(overRun('steps', to, ...words), back), fault = faultOf(answer);
    const at = parseInt(answer.output.split('\n').find(comes) ?? '', 10);
    if (at >= 0 || to === end || fault) return { at, fault };
    from = to;
  }
}

/** Goes to after the next step that meets a condition, or else to the first one of the run. */
async function runTo(/** @type {string} */ condition) {
  const start = turn(), asked = deck;
  $('target').value = condition;
  const next = await findStep(condition, start), isNext = next.fault || next.at >= 0;
  const { at, fault } = isNext ? next : await findStep(condition, 0, start), none = !(at >= 0);
  const load = none && !fault ? (await ask(overRun('state', 0))).output : '';
  if (deck !== asked || turn() !== start) return;
  const isAtLoad = load.includes(`${condition} `), how = isAtLoad ? ': at the load.'
    : none ? ' does not come.' : `: after turn ${at}${isNext ? '' : ', the first of the run'}.`;
  if (!none || isAtLoad) go(none ? 0 : at + 1);
  say(fault === 'number out of range' ? $('target').title : fault || `${condition}${how}`);
}

/** Plays on from the cursor, or pauses. */
function play() {
  const isOn = !timer, beat = Math.max(20, Math.min(150, 8000 / last()));
  const next = () => (turn() === last() ? play() : front.worksFor() || go(turn() + 1));
  if (isOn && turn() === last()) go(0);
  clearInterval(timer);
  timer = isOn ? setInterval(next, beat) : 0;
  Object.assign($('play'), { textContent: isOn ? '⏸' : '▶', ariaLabel: isOn ? 'Pause' : 'Play' });
}

/** Shows how the processors stand, and the order so far. */
function showHand(/** @type {Answer} */ { status, output }) {
  if (status === 0) standing.clear();
  for (const line of output.match(/^PP\d\d P=.*$/gm) ?? []) standing.set(line.slice(2, 4), line);
  for (const button of $('steps').children) {
    const line = standing.get(button.textContent.slice(2)) ?? '';
    button.hidden = !line;
    button.title = `One step, key ${button.ariaKeyShortcuts}\n${line}`;
    button.className = isHeld(line) ? 'held' : isRunning(line) ? '' : 'rest';
  }
  const turns = turn() - list.length;
  $('then').textContent = turns < 0 ? `${-turns} more follow` : turns ? `then ${turns} turns` : '';
  if (document.activeElement === $('order')) return;
  $('order').value = orderText(list, turn());
  $('order').ariaInvalid = 'false';
}

/** Finds how the run by turns ends, and says whether the run shown is cut before that. */
async function findEnding() {
  const asked = deck, { output } = await ask(endsWords(), back);
  const [, how = '', from = LAST_TURN, every = 0] =
    /^(.*?) (?:FROM|AT) (\d+)(?: EVERY (\d+))?/.exec(output) ?? [];
  if (deck !== asked) return;
  endTurn = Number(from);
  const to = endTurn + Number(every), isCut = last() < to, goesOn = how === 'GOING ON';
  $('cut').hidden = list.length || !how;
  $('cut').textContent = goesOn ? 'goes on' : isCut ? `cut: still running. Run to the end, ${to}`
    : `${how.toLowerCase()} from ${endTurn}${every ? ` every ${every}` : ''}`;
  $('cut').onclick = () => (goesOn ? choose('Ends') : go(isCut ? to : endTurn));
}
