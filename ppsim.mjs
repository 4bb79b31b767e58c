// node ppsim.mjs COMMAND [OPTION..] < DECK
//
// The simulator where only Node is there, by the module in ppsim.html beside this file. It prints
// what the program prints, and ends with its status, its help too; it reads standard input only, and
// has no threads.
import { readFileSync } from 'node:fs';
import { inflateSync } from 'node:zlib';

const TAKEN = 'const MODULE = ', MOST = 1 << 30; // bytes for one call
const aligned = n => Math.ceil(n / 16) * 16;

/** The module of the page. */
function library() {
  const page = readFileSync(new URL('ppsim.html', import.meta.url), 'latin1');
  const start = page.indexOf(TAKEN) + TAKEN.length;
  const packed = Buffer.from(JSON.parse(page.slice(start, page.indexOf(';', start))), 'base64url');
  return new WebAssembly.Module(inflateSync(packed));
}

/** A call over these bytes, with so much memory and room: the answer, and the texts in the room. */
function call(module, words, input, size, length) {
  const { ppsim_run: run, memory, __heap_base: free } = new WebAssembly.Instance(module).exports;
  // One after another: the answer, where the memory for the work is, the words, the input, that
  // memory, the room.
  const answer = aligned(Number(free.value)), lent = answer + 32, text = lent + 16;
  const given = text + words.length, place = aligned(given + input.length), room = place + size;
  const pages = Math.ceil((room + length - memory.buffer.byteLength) / 65536);
  if (pages > 0) try { memory.grow(BigInt(pages)); } catch { memory.grow(pages); } // Node 20 counts so
  const bytes = new Uint8Array(memory.buffer), view = new DataView(memory.buffer);
  bytes.set(words, text);
  bytes.set(input, given);
  [place, size].forEach((it, n) => view.setBigUint64(lent + 8 * n, BigInt(it), true));
  run(...[answer, lent, text, words.length, given, input.length, room, length].map(BigInt));
  const [output, error] = [8, 16].map(it => Number(view.getBigUint64(answer + it, true)));
  const part = count => bytes.subarray(room, room + Math.min(count, length));
  return { status: view.getUint32(answer, true), length: output, output: part(output), error: part(error) };
}

/** An answer with as much memory and room as it takes. */
function answered(module, words, input) {
  for (let size = 1 << 22, length = 1 << 16; ;) {
    const it = call(module, words, input, size, length);
    if (it.status === 5) length = it.length;
    else if (it.status === 4 && size < MOST) size *= 4;
    else return it;
  }
}

let module;
try { module = library(); } catch (fault) {
  console.error(`ppsim.mjs: ${fault.message}\nIt needs ppsim.html beside it, and Node 24 or newer `
    + '(in older ones node --experimental-wasm-memory64, if they have it).');
  process.exit(3);
}
// An empty word alone is passed as two: an empty text has none.
const asked = process.argv.slice(2), words = Buffer.from(asked.join('\0') || '\0'.repeat(asked.length));
// Help and refusals wait for no input. This one is refused wherever it is read.
const first = answered(module, words, Uint8Array.of(255));
const { status, output, error } = first.status === 1 ? answered(module, words, readFileSync(0)) : first;
process.stdout.on('error', () => process.exit(3)); // a reader that ended early
process.stdout.write(output);
process.stderr.write(error);
process.exitCode = status;
