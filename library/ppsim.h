/* The simulator of the 6600's peripheral processors, as a library for C: one call, which does what a
   command of the program does, over bytes. It may be made from any thread, in memory of its own. No
   pointer that is passed is null, also if its length is 0. docs/EMBEDDING.md says what is proved of it. */
#ifndef PPSIM_H
#define PPSIM_H

#include <stddef.h>
#include <stdint.h>

#ifdef __cplusplus
extern "C" {
#endif

enum {
    PPSIM_DONE = 0,
    PPSIM_BAD_INPUT = 1, /* the deck or the trace is refused, the deck can't be dumped, or lint or
                            test found something: then there is output */
    PPSIM_BAD_USAGE = 2, /* the words are refused */
    PPSIM_NO_MEMORY = 4, /* the memory does not suffice */
    PPSIM_TOO_LONG = 5   /* the output has more bytes than the room, which is as it was */
};

/* The status is one of these, but for the last the program's own. The room begins with the text for
   the program's standard output, of `output` bytes; or, if there is none, with `error` bytes of that
   for its standard error, as many as there is room for. */
typedef struct {
    uint32_t status;
    uint64_t output;
    uint64_t error;
} ppsim_answer;

/* The memory that a call works in: `size` bytes, a multiple of 16, from a place on that is aligned
   to 16, apart from all else that is passed. What stands here after a call is its host's again: as
   many bytes, for the next call; or none, if the call has kept them, which no call does in tests. */
typedef struct {
    void *place;
    size_t size;
} ppsim_memory;

/* As much of these bytes as a call can work in. */
static inline ppsim_memory ppsim_memory_in(void *bytes, size_t size) {
    size_t skipped = (size_t)(-(uintptr_t)bytes & 15);
    ppsim_memory memory = {bytes, 0};
    if (size > skipped) {
        memory.place = (unsigned char *)bytes + skipped;
        memory.size = (size - skipped) & ~(size_t)15;
    }
    return memory;
}

/* The words are those that the program takes behind its own name, with a byte 0 between two of them:
   "state\0--turns\0" "40", in two pieces since \040 is one byte; an empty text has no word. They may
   ask for help, but neither name a file nor ask for threads. The input is a deck, or a trace for
   `check`. */
ppsim_answer ppsim_run(ppsim_memory *memory, const uint8_t *words, size_t words_length,
                       const uint8_t *input, size_t input_length, uint8_t *room, size_t room_length);

#ifdef __cplusplus
}
#endif

#endif
