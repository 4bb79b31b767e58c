/* Words, memory and room at their ends: what is answered, and that nothing else is written. */
#include <stdio.h>
#include <stdlib.h>
#include <string.h>
#include "ppsim.h"

enum { MEMORY = 1 << 22, ROOM = 4096, GUARD = 64, KEPT = 0xa5 };

#define DECK "PP 0\n0100 7405 1407 7205 0300\nSTART 0100\nPP 1\n0200 7005 0300\nSTART 0200\n"
#define TEXT(literal) literal, sizeof literal - 1 /* with the bytes 0 within it */

static unsigned char *bytes, *text;
static ppsim_memory lent;
static int wrong;

static void expect(int is_so, const char *what, unsigned long long number) {
    if (is_so) return;
    printf("not so: %s %llu\n", what, number);
    wrong++;
}

static int is_kept(const unsigned char *from, size_t size) {
    for (size_t i = 0; i < size; i++)
        if (from[i] != KEPT) return 0;
    return 1;
}

/* A call in this much memory and room. Memory is given back, and nothing past either is written. */
static ppsim_answer run_in(size_t size, size_t room, const char *words, size_t words_length,
                           const char *input, size_t input_length) {
    memset(bytes, KEPT, MEMORY + GUARD);
    memset(text, KEPT, ROOM + GUARD);
    lent = (ppsim_memory){bytes, size};
    ppsim_answer it = ppsim_run(&lent, (const uint8_t *)words, words_length,
                                (const uint8_t *)input, input_length, text, room);
    size_t used = it.status == PPSIM_TOO_LONG ? 0 : it.output + it.error;
    expect(lent.place == bytes && lent.size == size, "memory given back of", size);
    expect(is_kept(bytes + size, MEMORY + GUARD - size), "kept past the memory of", size);
    expect(used <= room && is_kept(text + used, ROOM + GUARD - used), "kept past the text of", used);
    expect(!it.output || !it.error, "one text at status", it.status);
    return it;
}

static ppsim_answer run(const char *words, size_t length) {
    return run_in(MEMORY, ROOM, words, length, TEXT(DECK));
}

static int says(ppsim_answer it, const char *line) {
    return it.output == 0 && it.error == strlen(line) && !memcmp(text, line, it.error);
}

static void rooms(void) {
    ppsim_answer whole = run(TEXT("barrel\0--turns\0" "40"));
    expect(whole.status == PPSIM_DONE && whole.output > 0, "ample room", whole.status);
    for (size_t room = 0; room <= whole.output; room++) {
        ppsim_answer it = run_in(MEMORY, room, TEXT("barrel\0--turns\0" "40"), TEXT(DECK));
        expect(it.status == (room < whole.output ? PPSIM_TOO_LONG : PPSIM_DONE), "a room of", room);
        expect(it.output == whole.output && it.error == 0, "the length in a room of", room);
    }
    static const char line[] = "ppsim: deck fault 4 at line 2\n";
    for (size_t room = 0; room < sizeof line + 1; room++) {
        ppsim_answer it = run_in(MEMORY, room, TEXT("list"), TEXT("PP 0\n0100 9\n"));
        size_t shown = room < sizeof line - 1 ? room : sizeof line - 1;
        expect(it.status == PPSIM_BAD_INPUT && it.output == 0, "a fault, and a room of", room);
        expect(it.error == shown && !memcmp(text, line, shown), "its words in a room of", room);
    }
}

static void memories(void) {
    static const size_t sizes[] = {0, 16, 32, 48, 1024, 65536};
    for (size_t i = 0; i < sizeof sizes / sizeof *sizes; i++) {
        ppsim_answer it = run_in(sizes[i], ROOM, TEXT("state\0--turns\0" "40"), TEXT(DECK));
        expect(it.status == PPSIM_NO_MEMORY && it.output == 0, "memory of", sizes[i]);
    }
    ppsim_memory odd = ppsim_memory_in(bytes + 5, 100);
    expect((uintptr_t)odd.place % 16 == 0 && odd.size % 16 == 0, "ppsim_memory_in", odd.size);
    expect((unsigned char *)odd.place + odd.size <= bytes + 105, "ppsim_memory_in ends", odd.size);
    expect(ppsim_memory_in(bytes + 5, 3).size == 0, "ppsim_memory_in of", 3);
}

static void refused(void) {
    static const struct {
        const char *words;
        size_t length;
    } all[] = {
        {TEXT("")}, {TEXT("\0")}, {TEXT("barrels")}, {TEXT("barrel\0")}, {TEXT("barrel")},
        {TEXT("list\0deck")}, {TEXT("list\0-\0-")}, {TEXT("help\0barrels")}, {TEXT("list\0--help=1")},
        {TEXT("--versio")}, {TEXT("list\0--turns\0" "1")}, {TEXT("barrel\0--turns")},
        {TEXT("barrel\0--turns\0" "1\0--turns\0" "1")}, {TEXT("barrel\0--turns\0" "1\0")},
        {TEXT("barrel\0--turns\0" "1000000")}, {TEXT("barrel\0--turns\0" "-1")},
        {TEXT("barrel\0--turns\0" "1\0--processors\0" "11")}, {TEXT("orders\0--states\0" "0")},
        {TEXT("draw\0--turns\0" "2001")}, {TEXT("steps\0--turns\0" "1\0--pp\0" "12")},
        {TEXT("barrel\0--turns\0" "1\0--until\0CH05 GET")}, {TEXT("check\0--opened\0" "1,99")},
        {TEXT("threads\0--steps\0" "1\0--patience\0" "1")}, {TEXT("list\0\xff")}};
    for (size_t i = 0; i < sizeof all / sizeof *all; i++) {
        ppsim_answer it = run(all[i].words, all[i].length);
        expect(it.status == PPSIM_BAD_USAGE && it.output == 0 && it.error > 0, "refused words", i);
        expect(text[it.error - 1] == '\n', "a line for words", i);
    }
    expect(says(run(TEXT("barrel\0--turns")), "error: a value is required for '--turns <N>' but none was "
                "supplied\n\nFor more information, try '--help'.\n"), "a line about words", 0);
    expect(says(run(TEXT("state\0--turns\0x")), "ppsim: number out of range\n"), "a number", 0);
    expect(run(TEXT("list\0-")).status == PPSIM_DONE, "the input by name", 0);
}

static void helps(void) {
    static const char start[] = "Prints the listing of a deck, one instruction a line, which is itself a deck\n\n"
                                "Usage: ppsim list [OPTIONS] [FILE]\n";
    ppsim_answer whole = run(TEXT("list\0-h"));
    expect(whole.status == PPSIM_DONE && !memcmp(text, start, sizeof start - 1), "help", whole.output);
    for (size_t room = 0; room < whole.output; room++)
        expect(run_in(MEMORY, room, TEXT("list\0-h"), TEXT("")).status == PPSIM_TOO_LONG, "help in", room);
    expect(run(TEXT("help\0list")).status == PPSIM_DONE, "help by name", 0);
    expect(run(TEXT("--version")).status == PPSIM_DONE, "the version", 0);
    for (size_t size = 0; size < 65536; size += 16) {
        ppsim_answer it = run_in(size, ROOM, TEXT("list\0-h"), TEXT(""));
        expect(it.status == (it.output ? PPSIM_DONE : PPSIM_NO_MEMORY), "help in memory of", size);
        it = run_in(size, ROOM, TEXT("list\0--turn"), TEXT(""));
        expect(it.status == PPSIM_BAD_USAGE || it.status == PPSIM_NO_MEMORY, "a refusal in memory of", size);
    }
}

static ppsim_answer run_in_order(size_t size, const char *order) {
    char words[64] = "barrel\0--turns\0" "8\0--order=";
    size_t front = sizeof "barrel\0--turns\0" "8\0--order=" - 1, length = strlen(order);
    memcpy(words + front, order, length);
    return run_in(size, ROOM, words, front + length, TEXT(DECK));
}

static void orders(void) {
    static const char shown[] = "000000 PP00 CH05 ACN\n000002 PP00 CH05 PUT 0007\n"
                                "000003 PP01 CH05 TAK 0007\nPP00 P=0103 A=000007 STOPPED\n"
                                "PP01 P=0201 A=000007 STOPPED\nCH05 ACTIVE EMPTY\n";
    static const char *const none[] = {"", "12", "0,", ",", " ", "0:", ":3", "0:0", "0:3:3", "000",
                                       "0:1000000", "0:999999,0"};
    ppsim_answer it = run_in_order(MEMORY, "0:3,1:2,0");
    expect(it.status == PPSIM_DONE && it.output == sizeof shown - 1, "length", it.output);
    expect(!memcmp(text, shown, sizeof shown - 1), "a text in order", it.status);
    for (size_t i = 0; i < sizeof none / sizeof *none; i++)
        expect(run_in_order(MEMORY, none[i]).status == PPSIM_BAD_USAGE, "refused order", i);
    expect(run_in_order(MEMORY, "0:999999").status == PPSIM_DONE, "an order of", 999999);
    expect(run_in_order(MEMORY / 4, "0").status == PPSIM_DONE, "memory of", MEMORY / 4);
    it = run_in_order(MEMORY / 4, "0:999999");
    expect(it.status == PPSIM_NO_MEMORY, "a small memory, and an order of", 999999);
}

static void inputs(void) {
    static char spaces[1500000];
    memset(spaces, ' ', sizeof spaces);
    ppsim_answer it = run_in(MEMORY, ROOM, TEXT("list"), spaces, 1048576);
    expect(it.status == PPSIM_DONE, "a deck of", 1048576);
    it = run_in(MEMORY, ROOM, TEXT("list"), spaces, 1048577);
    expect(it.status == PPSIM_BAD_INPUT && it.output == 0, "a deck of", 1048577);
    it = run_in(MEMORY, ROOM, TEXT("lint"), TEXT("PP 0\n0100 9\n"));
    expect(it.status == PPSIM_BAD_INPUT && it.output > 0, "what lint finds", it.status);
    it = run_in(MEMORY, ROOM, TEXT("test\0--turns\0" "9"), TEXT("PP 0\n*= PP00 STOPPED\n"));
    expect(it.status == PPSIM_BAD_INPUT && it.output > 0, "what fails", it.status);
    it = run_in(MEMORY, ROOM, TEXT("check"), TEXT("0 PP00 CH05 DCN\n"));
    expect(it.status == PPSIM_BAD_INPUT && it.error > 0, "a trace", it.status);
    for (size_t length = 0; length <= sizeof DECK - 1; length++)
        run_in(MEMORY, ROOM, TEXT("lint"), DECK, length);
}

int main(void) {
    bytes = aligned_alloc(16, MEMORY + GUARD);
    text = malloc(ROOM + GUARD);
    if (!bytes || !text) return 2;
    rooms();
    memories();
    refused();
    helps();
    orders();
    inputs();
    printf("ends: %s\n", wrong ? "not as they should be" : "as they should be");
    return wrong ? 1 : 0;
}
