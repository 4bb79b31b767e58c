// floor PROCESSORS: a bare program beside which to see what self1, self10 and self20 take by
// threads, 100,000 steps each. Each thread makes four exchanges on the word of a channel of its own
// in every five steps, and keeps what a report keeps: 16 bytes an event and 10 a step. Then come 4
// bytes an event for its channel's history, one for its author, and a line as long as its line.
// Nothing is decoded or checked.

#include <pthread.h>
#include <stdatomic.h>
#include <stdint.h>
#include <stdlib.h>
#include <string.h>
#include <unistd.h>

enum { STEPS = 100000, EVENTS = STEPS / 5 * 4, MOST = 20, PIECE = 8192 };

typedef struct {
  uint64_t number;
  uint16_t word;
  uint8_t kind, channel;
} Entry;

typedef struct {
  uint16_t word[4];
  uint8_t kind, flags;
} Answer;

static struct {
  _Alignas(128) _Atomic uint64_t word;
} channels[MOST];
static Entry *logs[MOST];

static void *work(void *argument) {
  long place = (long)argument;
  Entry *log = malloc((2 * STEPS + 1) * sizeof(Entry));
  Answer *answers = malloc(STEPS * sizeof(Answer));
  size_t events = 0;
  for (size_t step = 0; step < STEPS; step++) {
    answers[step] = (Answer){{step}, step % 5, 1};
    if (step % 5 == 4) continue;
    uint64_t found = atomic_load(&channels[place].word);
    if (!atomic_compare_exchange_strong(&channels[place].word, &found, found + (1 << 14))) abort();
    log[events++] = (Entry){found >> 14, 7, step % 5, place};
  }
  logs[place] = log;
  return 0;
}

static char piece[PIECE];
static size_t used;

static void flush(void) {
  if (write(1, piece, used) < 0) exit(1);
  used = 0;
}

static void print(long place, long number, int author, uint32_t event) {
  char line[] = "CH00 000000 PP00 PUT 0000\n";
  line[2] += place >> 3, line[3] += place & 7;
  for (int at = 10; at > 4; at--, number /= 10) line[at] += number % 10;
  line[14] += author >> 3, line[15] += author & 7;
  for (int at = 24, word = event & 4095; at > 20; at--, word >>= 3) line[at] += word & 7;
  size_t length = event >> 12 == 1 || event >> 12 == 2 ? 26 : 21;
  line[length - 1] = '\n';
  if (used + length > PIECE) flush();
  memcpy(piece + used, line, length);
  used += length;
}

int main(int count, char **words) {
  long processors = count > 1 ? atol(words[1]) : 0;
  if (processors < 1 || processors > MOST) return 2;
  pthread_t threads[MOST];
  for (long place = 1; place < processors; place++) {
    if (pthread_create(&threads[place], 0, work, (void *)place)) return 1;
  }
  work(0);
  for (long place = 1; place < processors; place++) pthread_join(threads[place], 0);
  for (long place = 0; place < processors; place++) {
    uint32_t *history = calloc(EVENTS, sizeof *history);
    uint8_t *authors = calloc(EVENTS, 1);
    for (size_t at = 0; at < EVENTS; at++) {
      Entry *entry = &logs[place][at];
      history[entry->number] = entry->kind << 12 | entry->word;
      authors[entry->number] = place;
    }
    for (size_t at = 0; at < EVENTS; at++) print(place, at, authors[at], history[at]);
  }
  flush();
  return 0;
}
