// What tools/page puts before the script, and the types that its modules share.
declare const MODULE: string, WORKER: string;
declare const EXAMPLES: Record<string, Run & { title: string }>;
declare const DecompressionStream: new (format: string) => ReadableWritablePair;

/** What a command answers. */
type Answer = { status: number, output: string, error: string };
/** A deck, its machine, the length of its run, and which moment of it is shown, how. */
type Run = { deck: string, processors: number, turns: number, turn?: number, order?: string,
  view?: string };
/** A deck of the reader's own. */
type Own = Run & { id: string, name: string };
/** Shows an answer, unless by then another is to be shown. */
type Paint = (answer: Answer, isOld: () => boolean) => unknown;
/** A view: the words of its command at a turn; its worker if it is of the whole run; what has to be
 * known before; what the command reads if not the deck; the words of one whose text stands below; how
 * its answer is shown, if not line by line; and which of its controls the address keeps. */
type View = { words: (turn: number) => string[], by?: ReturnType<typeof engine>,
  before?: () => Promise<unknown>, input?: () => Uint8Array, also?: () => string[], paint?: Paint,
  keeps?: string[] };
/** The drawing that is shown: the turns it has, how wide one is, and what stays in sight. */
type Drawn = { answer: Answer, from: number, to: number, width: number, names: Element[],
  legend: Element };
/** What is found in the lines of an editor, by their numbers from 0. */
type Notes = Map<number, string>;
/** A line of a text that leads to after a turn, or to a place: `PP00 P=0105`. */
type Line = { text: string, at: number, place: string };
