// ---- the drawing

const MOST_DRAWN = 1000;
let /** @type {Drawn | null} */ drawn = null;

/** The command that draws the part of the run in which the turn is. */
function drawingWords() {
  const half = MOST_DRAWN / 2, near = Math.floor((turn() - half / 2) / half) * half;
  const from = Math.max(0, Math.min(near, last() - MOST_DRAWN));
  const to = Math.min(last(), from + MOST_DRAWN);
  return overRun('draw', last(), '--from', `${from}`, '--to', `${to}`);
}

/** A drawing as an element. Its text is the only one that is read as markup: it is proved
 * well-formed, and has no text of a deck in it. */
function pictureOf(/** @type {string} */ text, ariaLabel = 'Drawing of the run') {
  const [element, style] = /<style>(.*?)<\/style>/s.exec(text) ?? ['', ''];
  const parsed = new DOMParser().parseFromString(text.replace(element, ''), 'image/svg+xml');
  const host = make('div', { role: 'img', ariaLabel });
  const sheet = new CSSStyleSheet();
  sheet.replaceSync(`${style.replaceAll(':root', ':host')} svg{display:block}
    rect.h{clip-path:inset(50% 0 0)} rect.l{clip-path:polygon(0 0,100% 70%,100% 100%,0 100%)}
    g>:last-child{paint-order:stroke;stroke:var(--ground);stroke-width:5px}
    @media print{svg{width:100%;height:auto}}`);
  host.attachShadow({ mode: 'open' }).append(document.adoptNode(parsed.documentElement));
  host.shadowRoot.adoptedStyleSheets = [sheet];
  return host;
}

/** Shows a drawing. Over a faulty deck the last one stays. */
function draw(/** @type {string[]} */ words, /** @type {Answer} */ answer) {
  const { status, output } = answer;
  if (status >= 0) $('drawing').classList.toggle('old', status !== 0);
  if (status !== 0 || drawn?.answer === answer) return moveCursor();
  const host = pictureOf(output), picture = host.shadowRoot.firstChild;
  $('picture').replaceWith(Object.assign(host, { id: 'picture' }));
  const names = [...picture.querySelectorAll("text[x='-72']")], legend = picture.querySelector('g');
  for (const name of names) name.parentNode?.append(name); // over the bands
  const [from, to] = ['--from', '--to'].map(it => Number(words[words.indexOf(it) + 1]));
  drawn = { answer, from, to, width: to - from <= 100 ? 10 : 4, names, legend };
  keepNames();
  moveCursor();
}

function moveCursor() {
  if (!drawn) return;
  const box = $('drawing'), x = 80 + (turn() - drawn.from) * drawn.width;
  $('cursor').style.transform = `translateX(${x}px)`;
  const isSeen = x > box.scrollLeft + 80 && x < box.scrollLeft + box.clientWidth - 40;
  if (!isSeen) box.scrollLeft = x - box.clientWidth / 2;
}

/** Keeps the legend and the names of the lanes in sight. */
function keepNames(x = $('drawing').scrollLeft) {
  for (const name of drawn?.names ?? []) name.setAttribute('x', `${x - 72}`);
  drawn?.legend.setAttribute('transform', `translate(${x + 8},8)`);
}

function drag(/** @type {PointerEvent} */ e) {
  if (!e.buttons || !drawn) return;
  $('drawing').setPointerCapture(e.pointerId);
  const x = e.clientX - $('picture').getBoundingClientRect().left;
  go(Math.min(drawn.to, drawn.from + Math.max(0, Math.round((x - 80) / drawn.width))));
}
