/*
 * A collector: takes a capture from standard input in lumps of odd sizes, as a serial link hands it over, and prints the
 * verdict of its replay. A fault is printed as soon as its bytes are there; what follows is read and swallowed.
 *
 *     collect < CAPTURE
 */
#include <inttypes.h>
#include <stdio.h>
#include <stdlib.h>
#include <unistd.h>

#include "demfizagu.h"

enum { LINE = 64, TOLD = 1, MOST = 97 };

static void print(const uint8_t *line, uint64_t size)
{
    if (size == 0)
        return;
    fwrite(line, 1, (size_t)size, stdout);
    putchar('\n');
    fflush(stdout);
}

static void stop(const char *what, uint32_t number)
{
    fprintf(stderr, "collect: %s: %" PRIu32 "\n", what, number);
    exit(1);
}

int main(void)
{
    const size_t words = demfizagu_replay_words();
    uint64_t *replay = malloc(words * sizeof *replay), told[TOLD];
    uint8_t line[LINE], lump[MOST];
    uint32_t number;
    size_t size = 1;
    ssize_t got;

    if (replay == NULL)
        stop("memory", 0);
    if ((number = demfizagu_replay_start(replay, words)) != DEMFIZAGU_DONE)
        stop("start", number);
    /* 1, 3, 5, .., 97 and again: most records are cut somewhere */
    while ((got = read(STDIN_FILENO, lump, size)) > 0) {
        number = demfizagu_replay_feed(replay, words, lump, (size_t)got, line, LINE, told, TOLD);
        if (number != DEMFIZAGU_DONE)
            stop("feed", number);
        print(line, told[0]);
        size = size < MOST ? size + 2 : 1;
    }
    if (got < 0)
        stop("standard input", 0);
    if ((number = demfizagu_replay_end(replay, words, line, LINE, told, TOLD)) != DEMFIZAGU_DONE)
        stop("end", number);
    print(line, told[0]);
    free(replay);
    return 0;
}
