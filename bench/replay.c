/*
 * A million symbols at width 2 with low noise: recorded into a file by the recorded calls, then heard again in pieces of 1. Prints the
 * nanoseconds a symbol of hearing, the best of some rounds, by the processor time. Built and run by bench/run --replay, which times the
 * replay of the file beside it.
 *
 *     replay FILE [ROUNDS]
 */
#define _POSIX_C_SOURCE 200809L
#include <math.h>
#include <stdio.h>
#include <stdlib.h>
#include <time.h>

#include "demfizagu.h"

enum { SYMBOLS = 1000000, WIDTH = 2, WINDOW = 64, ROOM = 65, BYTES = 512 };

static uint32_t draw(uint64_t *seed)
{
    *seed = *seed * 6364136223846793005u + 1442695040888963407u;
    return (uint32_t)(*seed >> 32);
}

/* A normal deviation of 20 line units. */
static int32_t noise(uint64_t *seed)
{
    const double a = (draw(seed) + 1.0) / 4294967297.0, b = draw(seed) / 4294967296.0;
    return (int32_t)lrint(20 * sqrt(-2 * log(a)) * cos(6.283185307179586 * b));
}

static double seconds(void)
{
    struct timespec now;
    clock_gettime(CLOCK_PROCESS_CPUTIME_ID, &now);
    return (double)now.tv_sec + 1e-9 * (double)now.tv_nsec;
}

static void must(uint32_t number, const char *call)
{
    if (number != DEMFIZAGU_DONE)
        fprintf(stderr, "replay: %s answered %u\n", call, (unsigned)number), exit(1);
}

int main(int argc, char **argv)
{
    const int rounds = argc > 2 ? atoi(argv[2]) : 5;
    FILE *file = argc > 1 ? fopen(argv[1], "wb") : NULL;
    const size_t t = demfizagu_sender_words(), r = demfizagu_receiver_words();
    uint64_t *tx = calloc(t, 8), *rx = calloc(r, 8), told[4], seed = 1;
    int32_t *points = malloc(4 * sizeof *points * SYMBOLS);
    uint32_t said[ROOM];
    uint8_t bytes[BYTES];
    if (!file || !tx || !rx || !points)
        return fprintf(stderr, "usage: replay FILE [ROUNDS]\n"), 2;

    must(demfizagu_sender_open(tx, t, WIDTH), "sender_open");
    must(demfizagu_receiver_open(rx, r, WIDTH, WINDOW, DEMFIZAGU_FREE), "receiver_open");
    must(demfizagu_record_open(WIDTH, WINDOW, DEMFIZAGU_FREE, bytes, BYTES), "record_open");
    fwrite(bytes, 1, 4, file);
    for (int k = 0; k < SYMBOLS; k++) {
        int32_t *p = points + 4 * k;
        must(demfizagu_send(tx, t, draw(&seed) & 127, p, 4), "send");
        for (int i = 0; i < 4; i++)
            p[i] = 128 * p[i] + noise(&seed);
        must(demfizagu_hear_recorded(rx, r, p, 4, said, ROOM, bytes, BYTES, told, 4), "hear_recorded");
        fwrite(bytes, 1, told[3], file);
    }
    must(demfizagu_finish_recorded(rx, r, said, ROOM, bytes, BYTES, told, 4), "finish_recorded");
    fwrite(bytes, 1, told[3], file);
    if (fclose(file) != 0)
        return fprintf(stderr, "replay: the file cannot be written\n"), 1;

    double best = 1e9;
    for (int i = 0; i < rounds; i++) {
        const double before = seconds();
        must(demfizagu_receiver_open(rx, r, WIDTH, WINDOW, DEMFIZAGU_FREE), "receiver_open");
        for (int k = 0; k < SYMBOLS; k++)
            must(demfizagu_hear(rx, r, points + 4 * k, 4, said, ROOM, told, 4), "hear");
        const double took = seconds() - before;
        if (took < best)
            best = took;
    }
    printf("%.1f\n", best / SYMBOLS * 1e9);
    free(points), free(tx), free(rx);
    return 0;
}
