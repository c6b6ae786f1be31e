/*
 * The replay of a file through the library, as the program `capture replay` does it: reads the file in
 * lumps of 65,536 bytes, feeds each to a replay, and prints the nanoseconds a symbol, the best of some rounds, by the processor time, with the
 * reading in it. Built and run by bench/run --replay, on the file that bench/replay.c wrote.
 *
 *     reader FILE [ROUNDS]
 */
#define _POSIX_C_SOURCE 200809L
#include <fcntl.h>
#include <stdio.h>
#include <stdlib.h>
#include <time.h>
#include <unistd.h>

#include "demfizagu.h"

enum { SYMBOLS = 1000000, LUMP = 65536, LINE = 64 };

static double seconds(void)
{
    struct timespec now;
    clock_gettime(CLOCK_PROCESS_CPUTIME_ID, &now);
    return (double)now.tv_sec + 1e-9 * (double)now.tv_nsec;
}

/* Feeds what the file holds, and leaves the verdict in `line`; its length, or -1 where the file cannot be read. */
static int replay(const char *name, uint64_t *state, size_t words, uint8_t *line)
{
    static uint8_t lump[LUMP];
    uint64_t told[1] = {0};
    ssize_t n = -1;
    const int fd = open(name, O_RDONLY);
    if (fd < 0)
        return -1;
    demfizagu_replay_start(state, words);
    while (told[0] == 0 && (n = read(fd, lump, LUMP)) > 0)
        demfizagu_replay_feed(state, words, lump, (size_t)n, line, LINE, told, 1);
    if (told[0] == 0)
        demfizagu_replay_end(state, words, line, LINE, told, 1);
    close(fd);
    return n < 0 ? -1 : (int)told[0];
}

int main(int argc, char **argv)
{
    const int rounds = argc > 2 ? atoi(argv[2]) : 5;
    const size_t words = demfizagu_replay_words();
    uint64_t *state = calloc(words, 8);
    uint8_t line[LINE];
    double best = 1e9;
    if (argc < 2 || !state)
        return fprintf(stderr, "usage: reader FILE [ROUNDS]\n"), 2;
    for (int i = 0; i < rounds; i++) {
        const double before = seconds();
        const int size = replay(argv[1], state, words, line);
        const double took = seconds() - before;
        if (size < 5 || line[0] != 'a')
            return fprintf(stderr, "reader: %.*s\n", size < 0 ? 0 : size, (const char *)line), 1;
        if (took < best)
            best = took;
    }
    printf("%.1f\n", best / SYMBOLS * 1e9);
    free(state);
    return 0;
}
