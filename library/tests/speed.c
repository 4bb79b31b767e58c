/* usage: speed PROGRAM DECK: how long a call of `barrel` takes, and a run of the program. The status
   is 1 if the library is not at least 50 times as fast. */
#define _POSIX_C_SOURCE 200809L
#include <fcntl.h>
#include <spawn.h>
#include <stdio.h>
#include <stdlib.h>
#include <sys/wait.h>
#include <time.h>
#include "ppsim.h"

extern char **environ;
static _Alignas(16) unsigned char memory[1 << 22];
static uint8_t deck[1 << 16], text[1 << 16];
static const char words[] = "barrel\0--turns\0" "40";

static double now(void) {
    struct timespec t;
    clock_gettime(CLOCK_MONOTONIC, &t);
    return 1e6 * (double)t.tv_sec + 1e-3 * (double)t.tv_nsec;
}

static int run_program(const char *program, const char *name) {
    char *command[] = {(char *)program, "barrel", "--turns", "40", NULL};
    posix_spawn_file_actions_t actions;
    pid_t child;
    int status = -1;
    posix_spawn_file_actions_init(&actions);
    posix_spawn_file_actions_addopen(&actions, 0, name, O_RDONLY, 0);
    posix_spawn_file_actions_addopen(&actions, 1, "/dev/null", O_WRONLY, 0);
    if (!posix_spawn(&child, program, &actions, NULL, command, environ)) waitpid(child, &status, 0);
    posix_spawn_file_actions_destroy(&actions);
    return status;
}

int main(int argc, char **argv) {
    FILE *file = argc == 3 ? fopen(argv[2], "rb") : NULL;
    if (!file) return 2;
    size_t length = fread(deck, 1, sizeof deck, file);
    fclose(file);
    double start = now(), end = start;
    long calls = 0, runs = 0;
    ppsim_memory whole = {memory, sizeof memory};
    for (; end - start < 1e6; calls++, end = now())
        if (ppsim_run(&whole, (const uint8_t *)words, sizeof words - 1, deck, length, text, sizeof text)
                .status)
            return 2;
    double per_call = (end - start) / (double)calls;
    for (start = end; end - start < 1e6; runs++, end = now())
        if (run_program(argv[1], argv[2])) return 2;
    double per_run = (end - start) / (double)runs;
    printf("speed: a call takes %.1f us, a run of the program %.0f us: %.0f times as long\n", per_call,
           per_run, per_run / per_call);
    return per_run / per_call < 50 ? 1 : 0;
}
