// node --experimental-websocket drive.js PAGE BROWSER [FOLDER_FOR_PICTURES [PARTS]]
//
// Drives the page in headless Chromium or Firefox as a reader would, and looks for errors in its
// console. The status is 1 if anything is not as it should be.
'use strict';
const fs = require('fs'), path = require('path'), zlib = require('zlib');
const browsers = require('./browsers.js');

const [page, which, pictures, only] = process.argv.slice(2);
const url = `file://${path.resolve(page)}`;
const pause = ms => new Promise(done => setTimeout(done, ms));
let browser, right = 0, wrong = 0;
const value = expression => browser.value(expression);

function expect(what, isSo) {
  if (isSo) {
    right++;
  } else {
    wrong++;
    console.log('not so:', what);
  }
}

/** Waits until this is so, for five seconds at most. */
async function becomes(what, expression) {
  for (let n = 0; n < 250; n++) {
    if (await value(`!!(${expression})`)) return expect(what, true);
    await pause(20);
  }
  expect(`${what}: ${await value(`$('text').textContent.slice(0, 300)`)}`, false);
}

/** Waits until the page shows something: a text, or that it is at work. */
async function shown(what) {
  const isShown = `typeof $ === 'function' && (!!$('text')?.textContent || !$('busy').hidden)`;
  for (let n = 0; n < 1000; n++) {
    if (await value(isShown).catch(() => false)) return;
    await pause(10);
  }
  expect(`the page is shown ${what}`, false);
}

async function show(words = {}, width = 1400, height = 900, more = {}) {
  await browser.screen({ width, height, ...more });
  await browser.open(`${url}#${new URLSearchParams(words)}`);
  await shown(`with ${JSON.stringify(words)}`);
}

async function reload() {
  await pause(500);
  await browser.reload();
  await pause(100);
  await shown('again');
}

async function picture(name) {
  if (!pictures) return;
  const data = Buffer.from(await browser.picture(), 'base64');
  fs.writeFileSync(path.join(pictures, `${browser.name}-${name}.png`), data);
}

const press = (key, held) => browser.press(key, held);

async function click(selector) {
  const { x, y, width, height } = await value(`document.querySelector(${JSON.stringify(selector)})
    .getBoundingClientRect().toJSON()`);
  const at = [x + Math.min(width / 2, 20), y + height / 2];
  await browser.mouse('Pressed', ...at);
  await browser.mouse('Released', ...at);
}

const type = text => browser.type(text);
const write = (id, text) => value(`$('${id}').value = ${JSON.stringify(text)};
  $('${id}').dispatchEvent(new Event('input', { bubbles: true }))`);
const pick = (id, it) => value(`$('${id}').value = ${JSON.stringify(it)};
  for (const name of ['input', 'change']) $('${id}').dispatchEvent(new Event(name, { bubbles: true }))`);
const choose = name => value(`document.querySelector('input[value=${name}]').click()`);

// ---- what a reader does

async function first() {
  const times = [];
  await browser.before(`{
    const isDrawn = () => document.getElementById('picture')?.shadowRoot?.querySelector('svg');
    const look = setInterval(() => {
      if (!isDrawn()) return;
      window.drawnAfter = performance.now();
      clearInterval(look);
    }, 1);
  }`);
  for (let n = 0; n < 5; n++) {
    await show();
    await becomes('a drawing is there', `window.drawnAfter`);
    times.push(await value(`window.drawnAfter`));
  }
  await becomes('the first example is shown after its 40 turns', `$('at').textContent === '40'
    && $('text').textContent.startsWith('PP00 P=0103 A=000007 STOPPED')`);
  console.log(`first picture after ${times.map(it => it.toFixed(0)).join(', ')} ms`);
  const median = [...times].sort((a, b) => a - b)[times.length >> 1];
  expect('the first picture comes within half a second, by the median', median < 500);
  await picture('first');
}

async function views() {
  const starts = {
    State: 'PP00', Steps: '000000 PP00 0100 7405', Events: '000000 PP00 CH05 ACN',
    Sessions: 'CH05 SESSION 1', Races: 'SAME IN EVERY ORDER', Ends: 'AT REST FROM',
    Endings: 'ENDINGS 1', Compare: 'The same.', Help: 'A deck loads words', Memory: '0100  7405', Listing: 'CENTRAL 10000',
    Dump: 'not between programs: CH05 active', Check: 'lawful: 3 events',
  };
  for (const [name, start] of Object.entries(starts)) {
    await choose(name);
    await becomes(`${name} is shown`, `$('text').textContent.trimStart().startsWith('${start}')`);
  }
  expect('the command is the view\'s', await value(`$('words').textContent === 'ppsim check'`));
  await choose('Memory');
  await pick('pp', '1');
  await becomes('the memory is that of the processor chosen',
    `$('words').textContent === 'ppsim memory --turns 40 --pp 1'
      && $('text').textContent.startsWith('0200  7005')`);
  await choose('Check');
  await write('trace', '000000 PP00 CH05 ACN\n000020 PP00 CH05 TAK 0007\n');
  await becomes('an unlawful trace is refused at its line',
    `$('text').textContent.startsWith('line 2: TAK 0007')
      && $('trace').ariaInvalid === 'true'
      && $('trace-rows').querySelector('.bad b')?.textContent === '2'`);
  await picture('check');
  await write('opened', '5');
  await becomes('channels may have been open', `$('text').textContent.startsWith('line 1: ACN')`);
  await reload();
  await becomes('the trace and these channels are in the address', `$('opened').value === '5'
    && $('trace').value.endsWith('TAK 0007\\n') && $('text').textContent.startsWith('line 1: ACN')`);
  expect('only the machine\'s processors are offered', await value(`[...$('pp').options].filter(it => !it.hidden).length === 10`));
  await show({ example: 'handoff', view: 'Check' });
  await becomes('without a trace it is the run\'s', `$('text').textContent.startsWith('lawful: 3 events on')`);
  const ringing = 'PP 0\n0100 7405 7205 0376\nSTART 0100\nPP 1\n0100 7005 0376\nSTART 0100\n';
  await show({ deck: ringing, turns: 999999, view: 'Check' });
  await becomes('of a long run it has the first events', `$('text').textContent.startsWith('lawful: ')
    && $('trace').value.length > 32000 && $('trace').value.length <= 32768
    && $('trace').value.endsWith('\\n') && $('kept').textContent === ''`);
  await show({ deck: 'PP 0\n0100 1401 7005 0300\nSTART 0100\n', view: 'Races' });
  await becomes('what is the same in every order may yet be stuck',
    `$('text').textContent.startsWith('SAME IN EVERY ORDER\\n\\nBy turns:\\nSTUCK FROM')`);
  await show({ example: 'central_block', view: 'Central' });
  await becomes('central memory is shown', `$('text').textContent.startsWith('000005  0001000200')
    && $('words').textContent === 'ppsim central --turns 50'`);
}

/** More options of a command, typed beside it. */
async function options() {
  const given = async (name, more, start) => {
    await choose(name);
    await pick('more', more);
    await becomes(`${name} takes ${more}`, `$('text').textContent.startsWith(${JSON.stringify(start)})`);
  };
  await show({ example: 'lost_word', turns: 80 });
  await given('Sessions', '--words', 'CH05 SESSION 1 FROM 000000 TO 000030 PUT 1 TAKEN 0 LOST 0007  0007\n');
  await given('Memory', '--first 100 --last 107', '0100  7405 1407 7205 7505 7405 1403 7205 0300');
  await choose('Central');
  expect('another view has none', await value(`$('more').value === '' && $('more').offsetWidth > 0`));
  await given('Steps', "--pp 1 --where 'CH05 TAK'", '000061 PP01 0203 7005');
  expect('the command has them', await value(`$('words').textContent
    === "ppsim steps --turns 80 --from 0 --pp 1 --where 'CH05 TAK'"`));
  await reload();
  await becomes('so has the address', `$('more').value === "--pp 1 --where 'CH05 TAK'"
    && $('text').textContent.startsWith('000061 PP01')`);
  await pick('more', '--bogus');
  await becomes('what is none is refused', `$('text').matches('.bad')
    && $('text').textContent.startsWith("error: unexpected argument '--bogus'")`);
  await choose('State');
  await becomes('a view without options has no field', `$('more').offsetWidth === 0
    && $('text').textContent.startsWith('PP00')`);
  await show({ example: 'lost_word', view: 'Memory', pp: 1 });
  await becomes('the processor chosen is in the address', `$('text').textContent.startsWith('0200  2400')`);
}

async function faults() {
  await show();
  await write('deck', 'PP 0\nPP 12\n');
  await becomes('a fault is shown at its line, in words',
    `$('fault').textContent === '2:4 no such processor: 12'
      && $('deck').ariaInvalid === 'true'
      && $('deck-rows').querySelector('.bad b')?.textContent === '2'`);
  expect('the last drawing stays', await value(`$('drawing').classList.contains('old')`));
  await picture('fault');
  await write('deck', 'PP 0\n0100 8\n0101 0\npp 1\n');
  await becomes('all faults are shown',
    `$('fault').textContent === '2:6 wrong digits: 8\\n4:1 no such line here: pp'
      && $('deck-rows').querySelectorAll('.bad').length === 2
      && $('deck-rows').querySelector('.bad')?.title === '2:6 wrong digits: 8'`);
  await write('deck', 'PP 0\n0100 2600 * RPN\nSTART 0100\n');
  await becomes('a line shows all that is found in it',
    `$('deck-rows').querySelector('.bad')?.title.split('\\n').length === 2`);
  await write('deck', 'PP 0\n0100 0300 * <img src=x onerror=alert(1)><script>alert(2)</script>\n'
    + 'START 0100\n');
  await becomes('a mended deck is run',
    `$('fault').textContent === '' && $('text').textContent.startsWith('PP00 P=0100')`);
  for (const name of ['Listing', 'Steps', 'State']) await choose(name);
  expect('a deck is no markup', await value(`!document.querySelector('img')
    && document.scripts.length === 1
    && !$('picture').shadowRoot.querySelector('img, script')`));
}

async function moving() {
  await show({ example: 'token_ring', turn: 100, view: 'State' });
  await becomes('the address says the turn', `$('at').textContent === '100'`);
  await press('ArrowRight');
  await becomes('an arrow goes on by a turn, and what changes is marked',
    `$('at').textContent === '101' && $('text').querySelector('mark')`);
  await press('ArrowLeft', { shift: true });
  await becomes('with shift by a round', `$('at').textContent === '91'`);
  await press(' ');
  await becomes('space plays', `turn() > 93 && $('play').ariaLabel === 'Pause'`);
  await press(' ');
  await becomes('and pauses', `$('play').ariaLabel === 'Play'`);
  const { left, top } = await value(`$('picture').getBoundingClientRect().toJSON()`);
  const mouse = (what, turn) => browser.mouse(what, left + 80 + 4 * turn, top + 60);
  await mouse('Pressed', 110);
  await becomes('a press moves the turn', `turn() === 110`);
  await mouse('Moved', 130);
  await becomes('and dragging', `turn() === 130`);
  await mouse('Released', 130);
  await choose('Listing');
  await becomes('the listing leads to turns', `$('text').querySelector('button')`);
  await value(`[...$('text').querySelectorAll('button')]
    .find(it => it.textContent.startsWith('0103')).click()`);
  await becomes('an instruction leads to the turn at which its processor stands there',
    `$('ran').textContent === 'PP00 P=0103: after turn 20, the first of the run.' && turn() === 21`);
  await click('#deck-rows > div:nth-child(11) b');
  await becomes('so does the number of its line', `turn() === 32 && $('target').value === 'PP01 P=0103'`);
  await becomes('lines that run are lit', `$('deck-rows').children[10].matches('.lit.stop')`);
  await pause(500);
  const kept = await value(`location.hash`);
  expect('the address keeps example, run, turn and view',
    /#example=token_ring&processors=10&turns=300&turn=\d+&view=Listing$/.test(kept));
  await picture('listing');
  await click('#views label:nth-of-type(1)');
  await becomes('a click chooses a view', `view() === 'State'`);
  await press('ArrowRight');
  await becomes('after it the keys still move the turn', `turn() === 33 && view() === 'State'`);
}

async function lists() {
  await show({ example: 'token_ring', turn: 300, view: 'Events' });
  await becomes('all events are there', `$('text').querySelectorAll('button').length > 30`);
  const count = await value(`$('text').children.length`);
  await value(`$('text').querySelectorAll('button')[12].focus()`);
  const at = await value(`Number(document.activeElement.textContent.slice(0, 6))`);
  // Without a window Firefox has no focus, and keys press no button.
  if (await value(`document.hasFocus()`)) await press('Enter');
  else await value(`document.activeElement.click()`);
  await becomes('an event leads to after its turn', `turn() === ${at + 1} && $('text').querySelector('.later')`);
  expect('the list is whole, the focus where it was, and the line marked',
    await value(`$('text').children.length === ${count} && document.activeElement.matches('#text button.now')`));
  await picture('events');
  await show({ example: 'handoff', view: 'Steps', turns: 999999, turn: 999999 });
  await becomes('where nothing runs it is said from when on',
    `$('text').textContent.startsWith('No step from turn') && $('cut').textContent === 'at rest from 32'`);
  await show({ example: 'handoff' });
  await pause(500);
  await pick('last', '999999');
  await becomes('the cursor goes to where the machine came to rest', `last() === 999999 && turn() === 32`);
  await pick('last', '1e9');
  await becomes('a length that is none is refused in words', `last() === 999999
    && $('ran').textContent.startsWith('Turns are a whole number') && $('last').matches(':invalid')`);
  await show({ example: 'bubble_sort', turns: 300, turn: 300 });
  await becomes('a run that is cut is said to be', `$('cut').textContent.startsWith('cut: still running')`);
  await click('#cut');
  await becomes('and goes on to its end', `turn() === 1601 && last() === 1601`);
  const dead = { example: 'dead_start', turn: 1600, view: 'State' };
  await show(dead);
  await becomes('no mark where nothing has changed', `$('text').textContent.includes('PP 11')
    && !$('text').querySelector('mark')`);
}

/** Steps by hand, back, and a link to just this moment. */
async function hand() {
  await show({ example: 'two_takers', turn: 0 });
  await becomes('there is a button for each processor', `$('steps').querySelectorAll(':not([hidden])').length === 3`);
  for (const key of ['0', '0', '0', '2']) await press(key);
  await becomes('keys make steps', `turn() === 4 && $('order').value === '0:3,2'`);
  await click('#steps button:nth-child(1)');
  await becomes('so do buttons', `turn() === 5 && $('order').value === '0:3,2,0'
    && $('words').textContent === 'ppsim state --turns 5 --order 0:3,2,0'`);
  for (let n = 0; n < 3; n++) await click('#back');
  await becomes('back undoes steps', `turn() === 2 && $('order').value === '0:2'
    && $('then').textContent === '3 more follow'`);
  await press('ArrowRight');
  await becomes('they are made again', `turn() === 3 && $('order').value === '0:3'`);
  await press('1');
  await becomes('a new step takes their place', `turn() === 4 && $('order').value === '0:3,1'
    && $('then').textContent === '' && list.length === 4`);
  await click('#turnOn');
  await click('#roundOn');
  await becomes('turns come after them', `turn() === 15 && $('then').textContent === 'then 11 turns'`);
  await press('2');
  await becomes('a step after turns is of this run', `turn() === 16
    && $('order').value === '0:3,1,0,1,2,3,4,5,6,7,10,11,0,2'`);
  await picture('hand');
  await pause(500);
  const [hash, text] = await value(`[location.hash, $('text').textContent]`);
  await show(Object.fromEntries(new URLSearchParams(hash.slice(1))));
  await becomes('a link shows this moment', `turn() === 16 && list.length === 16
    && $('text').textContent === ${JSON.stringify(text)}`);
  await value(`$('order').focus(); $('order').select()`);
  await type('0:4,2:3');
  await press('Enter');
  await value(`$('order').blur()`);
  await becomes('an order can be typed', `turn() === 7 && orderText(list) === '0:4,2:3'`);
  await pick('order', '0:4,12');
  await becomes('what is none is refused', `orderText(list) === '0:4,2:3'
    && $('ran').textContent.startsWith('An order is a list')`);
  await show({ example: 'two_takers', turn: 0 });
  await pause(300);
  await value(`$('target').value = 'CH05 TAK'; $('run').click()`);
  await becomes('a run to an event', `turn() === 22`);
  await value(`$('run').click()`);
  await becomes('and to the next one', `turn() > 22`);
  await value(`$('target').value = 'LUST'; $('run').click()`);
  await becomes('what is no condition is said to be none', `$('ran').textContent.startsWith('Say where to')`);
  const times = await value(`(async () => {
    load('handoff', { ...EXAMPLES.bubble_sort, order: '', turns: 0 });
    list = Array.from({ length: 10000 }, (_, n) => n % 3 ? 0 : 1);
    go(10000);
    await new Promise(done => setTimeout(done, 1500));
    const times = [], isShown = () => $('words').textContent.includes('--turns ' + turn() + ' ');
    for (let n = 0; n < 40; n++) {
      const shown = new Promise(done => {
        const observer = new MutationObserver(() => {
          if (!isShown()) return;
          observer.disconnect();
          done();
        });
        observer.observe($('words'), { childList: true });
      });
      const began = performance.now();
      stepBy(n % 2);
      await shown;
      times.push(performance.now() - began);
      await front.free();
    }
    return times.sort((a, b) => a - b);
  })()`);
  console.log(`a step by hand after 10,000: from ${times[0].toFixed(1)} ms, median ${times[20].toFixed(1)} ms`);
  expect('how things stand after a step by hand is shown within 50 ms, by the median', times[20] < 50);
}

async function endings() {
  await show({ example: 'two_takers', view: 'Races' });
  await becomes('races are found', `$('text').textContent.includes('MAY DIFFER')`);
  await value(`[...$('text').querySelectorAll('button')].find(it => it.textContent === 'MAY DIFFER').click()`);
  await becomes('they lead to the endings', `view() === 'Endings'
    && $('text').textContent.startsWith('ENDINGS 2') && $('text').querySelectorAll('.ending').length === 2`);
  await picture('endings');
  await value(`$('text').querySelectorAll('.ending button')[2].click()`);
  await becomes('an ending is loaded', `$('order').value === '0:4,2:2,0:2,1:2' && turn() === 10
    && [...standing.values()].every(it => it.includes('STOPPED'))`);
  await pause(500);
  await value(`$('text').querySelectorAll('.ending .aside')[1].click()`);
  await becomes('and compared with the turn order', `view() === 'Compare'
    && $('left').value === 'the turn order, at its end' && $('right').value === 'ending 2'
    && $('text').querySelectorAll('.two mark').length > 1`);
  await picture('compare');
  const [hash, text] = await value(`new Promise(done => setTimeout(() =>
    done([location.hash, $('text').textContent]), 500))`);
  await show(Object.fromEntries(new URLSearchParams(hash.slice(1))));
  await becomes('a link shows the same two', `$('left').value === 'the turn order, at its end'
    && $('right').value === 'ending 2' && $('text').textContent === ${JSON.stringify(text)}`);
  expect('from their beginnings on', await value(`[...$('text').querySelectorAll('[role=img]')]
    .every(it => it.shadowRoot.querySelector('title').textContent.includes('turns 0 to '))`));
  expect('each drawing with its name', await value(`[...$('text').querySelectorAll('[role=img]')]
    .map(it => it.ariaLabel).join() === 'Left run,Right run'`));
  await pick('right', 'ending 1');
  await becomes('that of the turn order is the same', `$('text').textContent.startsWith('The same')`);
  await show({ example: 'lost_word', view: 'Endings' });
  await becomes('an ending says which word its order loses, and where',
    `[...$('text').querySelectorAll('.lost')].map(it => it.textContent).join() === 'CH05 loses 0007\\n,'`);
  await picture('lost');
}

/** The exercises as they stand fail, and their solutions hold in every order. */
async function exercises() {
  const folder = path.join(__dirname, '../../crates/pages/data/examples/exercises/solved');
  await show();
  for (const name of await value(`[...document.querySelectorAll('[label=Exercises] option')].map(it => it.value)`)) {
    await pick('example', name);
    const says = name === 'two_readers' ? 'ORDER 0:5,2:3,0:2,1:3' : 'FAILED';
    await becomes(`${name} is not so yet`, `view() === 'Test' && $('example').value === '${name}'
      && $('text').textContent.includes('${says}')`);
    await write('deck', fs.readFileSync(path.join(folder, `${name}.deck`), 'ascii'));
    await becomes(`${name} can be solved`, `$('text').textContent.includes('Right in every order.')
      && /^HELD \\d+ IN \\d+ ENDINGS?$/m.test($('text').textContent)`);
  }
  await pick('states', '1');
  await becomes('where endings may be missing it claims nothing', `view() === 'Test'
    && /OR MORE|HELD 0 IN 0/.test($('text').textContent) && !$('text').textContent.includes('Right in')`);
  await pick('states', '1000');
  await pick('example', 'two_readers');
  await becomes('an order that is wrong is a button', `$('text').querySelector('button')`);
  await picture('test');
  await value(`$('text').querySelector('button').click()`);
  await becomes('which shows it', `$('order').value === '0:5,2:3,0:2,1:3' && turn() === 13`);
  await pick('example', 'two_takers');
  await becomes('a deck without expectations is said to have none',
    `$('text').textContent.includes('no expectations')`);
}

async function decks() {
  const deck = 'PP 20\n0100 1405 0300\nSTART 0100\n';
  await show({ deck, processors: 20, turns: 60, turn: 45, view: 'Steps' });
  await becomes('a deck comes by the address', `$('text').textContent.includes('PP20 0100 1405')
    && $('at').textContent === '45'
    && $('words').textContent === 'ppsim steps --turns 60 --from 0 --processors 20'`);
  await value(`{
    const dataTransfer = new DataTransfer();
    dataTransfer.items.add(new File(['PP 3\\n0200 0300\\nSTART 0200\\n'], 'pump.deck'));
    window.dispatchEvent(new DragEvent('drop', { dataTransfer, cancelable: true }));
  }`);
  await becomes('and by a drop, with its name', `$('deck').value.startsWith('PP 3')
    && $('text').textContent.includes('PP03 0200 0300') && mine().name === 'pump'`);
  await pause(500);
  const kept = await value(`location.hash`);
  expect('the address has it', kept.startsWith('#deck=PP+3%0A0200'));
}

/** A newcomer finds the word that lost_word loses, an order that keeps it, and a link that shows it:
 * by the names on the page, with keys for the deck and five clicks. */
async function newcomer() {
  await show();
  const began = Date.now(), named = async (selector, name) => {
    await value(`[...document.querySelectorAll('${selector}')]
      .find(it => it.textContent.trim() === '${name}').setAttribute('data-named', '')`);
    await click(`${selector}[data-named]`);
    await value(`document.querySelector('[data-named]')?.removeAttribute('data-named')`);
  };
  const lost = `$('picture').shadowRoot.querySelector('rect.l[y]')`;
  for (const key of ['Tab', 'Tab', ...'lost']) await press(key);
  await becomes('a deck is chosen by its name, and the drawing has a lost word', `${lost}
    && $('example').value === 'lost_word'`);
  await named('#views label', 'Endings');
  await becomes('one of two endings loses it', `$('text').querySelectorAll('.ending').length === 2
    && $('text').textContent.match(/loses/g).length === 1`);
  await named('#text button', '2  ORDER 0:3,1:5,0:5');
  await becomes('in its order no word is lost', `turn() === 13 && !${lost}`);
  await named('#views label', 'State');
  await becomes('processor 1 has it', `$('text').textContent.includes('PP01 P=0204 A=000007')`);
  await named('header button', 'Link');
  console.log(`a newcomer's keys and clicks: ${((Date.now() - began) / 1000).toFixed(1)} s`);
  const words = Object.fromEntries(new URLSearchParams((await value(`location.hash`)).slice(1)));
  await show(words);
  await becomes('a link shows it', `$('order').value === '0:3,1:5,0:5' && turn() === 13 && view() === 'State'
    && $('text').textContent.includes('PP01 P=0204 A=000007') && !${lost}`);
}

/** That an edit survives whatever a reader does. */
async function edits() {
  await show({ example: 'handoff' });
  const first = await value(`$('deck').value`), chosen = `$('example').selectedOptions[0].textContent`;
  await value(`$('deck').focus(); $('deck').setSelectionRange(0, 0)`);
  await type('* mine\n');
  await becomes('an edited example is a deck of one\'s own', `${chosen}.startsWith('my handoff')`);
  await becomes('beside each line is what it does', `[...$('deck-rows').children].slice(3, 4)
    .flatMap(it => [...it.querySelectorAll('span, mark')]).map(it => it.textContent).join('; ') === 'ACN 05; LDN 07; OAN 05; UJN 0103'`);
  const mine = await value(`$('example').value`);
  await pick('example', 'lost_word');
  await becomes('an example opened over it', `$('deck').value === EXAMPLES.lost_word.deck`);
  await pick('example', mine);
  await becomes('leaves it among one\'s own', `$('deck').value === ${JSON.stringify(`* mine\n${first}`)}`);
  await pick('example', 'lost_word');
  await value(`$('deck').focus()`);
  await press('z', { ctrl: true });
  await becomes('undo brings it back too', `$('deck').value.startsWith('* mine')
    && $('example').value === ${JSON.stringify(mine)}`);
  await becomes('the address follows', `location.hash.startsWith('#deck=')`);
  await reload();
  await becomes('and has it after a reload', `$('deck').value.startsWith('* mine')`);
  const long = `${'* long\n'.repeat(8000)}PP 0\n0100 0300\nSTART 0100\n`;
  await write('deck', long);
  await becomes('what is too long for the address is said to be', `$('kept').textContent.startsWith('Too long')`);
  await reload();
  await becomes('and is kept', `deckText().length === ${long.length}`);
  await show({ kept: 'nothing' });
  await becomes('what another browser keeps is said to be elsewhere',
    `$('ran').textContent.startsWith('The deck of this address')`);
  await pause(500);
  expect('and the address is that of the deck shown', await value(`location.hash.startsWith('#example=')`));
  await write('deck', '* '.repeat(600000));
  await becomes('a deck of more than a megabyte is refused',
    `$('fault').textContent === '1:1 longer than 1048576 bytes'`);
}

/** A deck of a megabyte is edited in parts, and no key holds up the page. */
async function parts() {
  await show();
  await value(`openFile(new File(['PP 0\\n', ...Array.from({ length: 99999 }, (_, n) =>
    (64 + n % 3500).toString(8).padStart(4, '0') + ' 1405\\n')], 'long.deck')), 0`);
  await becomes('of a long deck the first part is shown', `!$('parts').hidden && $('part').length === 50
    && $('deck').value.split('\\n').length === 2000 && deckText().length === 999995`);
  await pick('part', '98001 to 100000');
  await becomes('its last part can be chosen, and each line has its number and what it does',
    `$('deck-rows').textContent.startsWith('98001LDN 0598002LDN 05')`);
  if (browser.controls) expect('the choice of a part has a name', (await browser.controls())
    .some(({ role, name }) => role === 'combobox' && name === 'Lines'));
  await value(`{
    $('deck').focus();
    $('deck').setSelectionRange(9, 9);
    const beat = new MessageChannel();
    let latest = performance.now();
    beat.port1.onmessage = () => {
      const now = performance.now();
      window.longest = Math.max(window.longest, now - latest);
      latest = now;
      beat.port2.postMessage(0);
    };
    beat.port2.postMessage(0);
  }`);
  const times = [];
  for (const key of ' *key') {
    await value(`window.longest = 0`);
    await press(key);
    await pause(1000);
    times.push(await value(`window.longest`));
  }
  times.sort((a, b) => a - b);
  console.log(`a key in a long deck holds the page up for ${times.map(it => it.toFixed(0)).join(', ')} ms`);
  expect('a key does not hold the page up', times[0] < 300);
  await type('\nSTART 0100');
  await becomes('the whole deck is run with the edit', `standing.get('00')?.includes('RUNNING')
    && new TextDecoder().decode(deck) === deckText()`);
  await value(`HTMLAnchorElement.prototype.click = function() { window.saved = this.href; }`);
  await click('#save');
  expect('and saved', await value(`decodeURIComponent(window.saved).split(',')[1] === deckText()
    && deckText().split('\\n')[98000].endsWith(' 1405 *key') && deckText().length === 1000011`));
  await pick('part', '1 to 2000');
  await press('z', { ctrl: true });
  expect('another part keeps it', await value(`$('deck').value.startsWith('PP 0\\n0100 1405\\n')
    && $('part').length === 51 && deckText().includes(' *key\\nSTART 0100\\n')`));
  await pick('part', '2001 to 4000');
  await value(`$('deck').setRangeText('9', 25, 29); $('deck').dispatchEvent(new Event('input'))`);
  await becomes('a fault is marked at its line, in the words of the whole deck',
    `$('fault').textContent.startsWith('2003:6 wrong digits: 9\\n')
      && $('deck-rows').children[2].matches('.bad') && $('deck-rows').children[2].textContent === '2003'
      && $('deck-rows').children[3].textContent === '2004LDN 05'`);
  await reload();
  await becomes('the deck is kept', `deckText().includes(' *key\\nSTART 0100\\n')
    && deckText().split('\\n')[2002].endsWith(' 9') && $('part').length === 51`);
  await pick('example', 'handoff');
  await becomes('a short deck has one part', `$('parts').hidden && deckText() === EXAMPLES.handoff.deck
    && $('deck').value === deckText() && $('deck-rows').textContent.startsWith('1')`);
  const long = '* long\n'.repeat(4001);
  await write('deck', long);
  await becomes('one that grows long is offered in parts', `!$('parts').hidden && $('part').length === 3
    && $('deck').value.length === ${long.length}`);
  await pick('part', '4001 to 4001');
  await becomes('and then cut', `$('deck').value === '* long\\n' && deckText().length === ${long.length}`);
}

/** Work that takes long can be stopped, and the page is not held up. */
async function work() {
  await show({ example: 'poll_loop', view: 'Endings', states: 20000 });
  await value(`$('states').value = 20001; showSoon()`);
  await becomes('long work is said to go on', `!$('busy').hidden`);
  await press('ArrowLeft');
  await becomes('the page goes on beside it', `turn() === 399 && standing.get('00')?.includes('STOPPED')`);
  await click('#stop');
  await becomes('it can be stopped', `$('busy').hidden && $('text').textContent === 'stopped'`);
}

/** How many pages a PDF has: it may hold their entries deflated. */
function pagesOf(paper) {
  const text = paper.toString('latin1'), parts = [text];
  for (const { index, 0: head } of text.matchAll(/\bstream\r?\n/g)) {
    const how = { finishFlush: zlib.constants.Z_SYNC_FLUSH };
    try { parts.push(zlib.inflateSync(paper.subarray(index + head.length), how).toString('latin1')); } catch {}
  }
  return parts.join('\n').match(/\/Type\s*\/Page\b/g)?.length;
}

/** Every width and kind of screen, and paper. */
async function screens() {
  for (const [width, height] of [[1280, 720], [1090, 800], [1024, 768], [820, 1180], [844, 390], [360, 780]]) {
    await show({ example: 'token_ring', turn: 150, view: 'Steps' }, width, height);
    await becomes(`the steps are shown at ${width}`, `$('text').textContent.includes('PP00')`);
    expect(`nothing is wider than ${width}`, await value(`document.documentElement.scrollWidth <= document.documentElement.clientWidth
      && $('views').querySelector('label:last-child').getBoundingClientRect().right <= innerWidth`));
    await picture(`width-${width}`);
  }
  await show({ example: 'lost_word', view: 'State' });
  const paper = Buffer.from(await browser.paper(), 'base64');
  if (pictures) fs.writeFileSync(path.join(pictures, `${browser.name}-paper.pdf`), paper);
  expect('it is printed on one page', pagesOf(paper) === 1);
  if (!browser.hasMedia) return;
  await browser.screen({ width: 1400, height: 900, forced: 'active' });
  await choose('Listing');
  await becomes('with forced colours the chosen view can be told', `getComputedStyle(
    document.querySelector('#views label:has(:checked)')).borderBottomWidth === '3px'
    && getComputedStyle(document.querySelector('#views label')).borderBottomWidth === '0px'`);
  await picture('forced');
}

async function names() {
  if (!browser.controls) return;
  await show();
  const roles = ['button', 'textbox', 'slider', 'combobox', 'radio', 'spinbutton', 'image'];
  const controls = (await browser.controls()).filter(({ role }) => roles.includes(role));
  expect('there are controls', controls.length > 15);
  for (const { role, name } of controls) expect(`a name for a ${role}`, !!name);
}

/** The times of frames while the cursor is dragged over a run of 2,000 turns. */
async function frames() {
  await show({ example: 'bubble_sort', view: 'State' });
  await value(`load('bubble_sort', { ...EXAMPLES.bubble_sort, turns: 2000, turn: 0 })`);
  await pause(500);
  const times = await value(`new Promise(done => {
    const all = [];
    let last = performance.now();
    const step = now => {
      all.push(now - last);
      last = now;
      go(all.length * 15);
      if (all.length > 120) done(all.slice(5));
      else requestAnimationFrame(step);
    };
    requestAnimationFrame(step);
  })`);
  times.sort((a, b) => a - b);
  const [middle, late] = [0.5, 0.95].map(it => times[Math.floor(times.length * it)].toFixed(1));
  console.log(`frames while dragged: median ${middle} ms, 95 of 100 within ${late} ms`);
  expect('60 frames a second', middle < 17.5);
}

async function main() {
  browser = await browsers[which]();
  const all = { first, views, options, faults, moving, lists, hand, endings, exercises, newcomer, decks, edits,
    parts, work, screens, names, frames };
  for (const [name, part] of Object.entries(all)) {
    if (!only || only.split(',').includes(name)) await part();
  }
  await show({ example: 'token_ring', turn: 150, view: 'Steps' }, 1400, 900, { scheme: 'dark' });
  await picture('dark');
  await show({ example: 'lost_word', turn: 40, view: 'State' }, 420, 900);
  await picture('narrow');
  await show({ example: 'poll_loop', turn: 252, view: 'State' }, 1200, 760);
  await becomes('the ending is known', `!$('cut').hidden`);
  await picture('page');
  for (const it of browser.complaints) expect(`the console says: ${it}`, false);
  console.log(`page in ${browser.name}: ${right} as they should be, ${wrong} not`);
}

main().catch(it => {
  wrong++;
  console.log(it);
}).finally(async () => {
  await browser?.close();
  process.exit(wrong > 0 ? 1 : 0);
});
