// The script of the page's workers: it runs commands over decks, off the page's own thread.

let library, idle = null;
const NO_MEMORY = 4, TOO_LONG = 5; // statuses of an answer
const aligned = n => Math.ceil(n / 16) * 16;

/** What the program answers to these words: a status, its standard output, its standard error. An
 * instance that gave its memory back serves again. */
function run(words, input, megabytes = 4) {
  const instance = idle ?? new WebAssembly.Instance(library), { exports } = instance;
  if (instance !== idle) exports.memory.grow(BigInt(16 * megabytes));
  idle = null;
  const bytes = new Uint8Array(exports.memory.buffer), view = new DataView(bytes.buffer);
  // One after another: the answer, where the memory for the work is, the words, the input, the room
  // for the texts, the memory for the work.
  const asked = new TextEncoder().encode(words.join('\0'));
  const answer = aligned(Number(exports.__heap_base.value));
  const memory = answer + 32, place = memory + 16, start = place + asked.length;
  const room = aligned(start + input.length), size = aligned((bytes.length - room) / 2) - 16;
  if (size < 65536) return run(words, input, 4 * megabytes);
  const lent = [room + size, size].map(BigInt);
  lent.forEach((it, n) => view.setBigUint64(memory + 8 * n, it, true));
  bytes.set(asked, place);
  bytes.set(input, start);
  const given = [answer, memory, place, asked.length, start, input.length, room, size];
  exports.ppsim_run(...given.map(BigInt));
  const status = view.getUint32(answer, true), isCut = status === NO_MEMORY || status === TOO_LONG;
  const [output, error] = [8, 16].map(it => Number(view.getBigUint64(answer + it, true)));
  const isBack = lent.every((it, n) => view.getBigUint64(memory + 8 * n, true) === it);
  if (isBack && !isCut && megabytes === 4) idle = instance; // one that has grown does not shrink
  if (isCut && megabytes < 1024) return run(words, input, 4 * megabytes);
  if (isCut) return { status: NO_MEMORY, output: '', error: 'ppsim: out of memory\n' };
  const textOf = length => new TextDecoder().decode(bytes.subarray(room, room + length));
  return { status, output: textOf(output), error: textOf(error) };
}

onmessage = ({ data: { module, words, input } }) => {
  if (module) library = module;
  else postMessage(run(words, input));
};
