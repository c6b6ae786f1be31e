/*
 * How fast captures are replayed in lumps: records a run of the library's own ends in memory, feeds it to a replay in lumps of
 * 1, 64 and 65536 bytes, and prints bytes a second, the best of some rounds. Built and run by bench/run --lumps.
 *
 *     lumps [ROUNDS]
 */
#define _POSIX_C_SOURCE 200809L
#include <stdio.h>
#include <stdlib.h>
#include <string.h>
#include <time.h>

#include "demfizagu.h"

enum { SYMBOLS = 200000, ROOM = 65, WINDOW = 64, LINE = 64 };

static uint8_t *put(uint8_t *at, uint32_t n, int bytes)
{
    for (int i = 0; i < bytes; i++)
        *at++ = (uint8_t)(n >> 8 * i);
    return at;
}

static uint8_t *words(uint8_t *at, const uint32_t *said, uint64_t count)
{
    for (uint64_t i = 0; i < count; i++) {
        *at++ = 3;
        at = put(at, said[i], 4);
    }
    return at;
}

/* A clean run of width u with a little noise. */
static size_t record(uint8_t *capture, uint32_t u)
{
    uint64_t *tx = malloc(8 * demfizagu_sender_words()), *rx = malloc(8 * demfizagu_receiver_words()), told[3];
    const size_t t = demfizagu_sender_words(), r = demfizagu_receiver_words();
    uint32_t said[ROOM], seed = 1;
    uint8_t *at = capture;

    demfizagu_sender_open(tx, t, u);
    demfizagu_receiver_open(rx, r, u, WINDOW, 0);
    at = put(at, 1, 1), at = put(at, u, 1), at = put(at, WINDOW, 1), at = put(at, 0, 1);
    for (int k = 0; k < SYMBOLS; k++) {
        int32_t point[4];
        demfizagu_send(tx, t, (seed = seed * 1664525u + 1013904223u) >> 8 & ((1u << (3 + 2 * u)) - 1), point, 4);
        for (int i = 0; i < 4; i++)
            point[i] = 128 * point[i] + (int32_t)((seed = seed * 1664525u + 1013904223u) >> 26) - 32;
        demfizagu_hear(rx, r, point, 4, said, ROOM, told, 3);
        *at++ = 2;
        for (int i = 0; i < 4; i++)
            at = put(at, (uint32_t)point[i], 2);
        at = words(at, said, told[1]);
    }
    demfizagu_finish(rx, r, said, ROOM, told, 3);
    *at++ = 4;
    at = words(at, said, told[1]);
    free(tx), free(rx);
    return (size_t)(at - capture);
}

static double seconds(void)
{
    struct timespec now;
    clock_gettime(CLOCK_MONOTONIC, &now);
    return (double)now.tv_sec + 1e-9 * (double)now.tv_nsec;
}

static double replay(const uint8_t *capture, size_t size, size_t lump)
{
    static uint64_t state[512], told[1];
    uint8_t line[LINE + 1];
    const double before = seconds();
    demfizagu_replay_start(state, 512);
    for (size_t at = 0; at < size; at += lump)
        demfizagu_replay_feed(state, 512, capture + at, at + lump < size ? lump : size - at, line, LINE, told, 1);
    demfizagu_replay_end(state, 512, line, LINE, told, 1);
    line[told[0]] = 0;
    if (strncmp((char *)line, "agree ", 6) != 0)
        fprintf(stderr, "lumps: %s\n", line), exit(1);
    return seconds() - before;
}

int main(int argc, char **argv)
{
    const int rounds = argc > 1 ? atoi(argv[1]) : 5;
    const size_t lumps[] = {1, 64, 65536};
    uint8_t *capture = malloc(16 * SYMBOLS + 1024);
    printf("bytes a second, in millions, in lumps of\n%5s %10s %10s %10s\n", "width", "1", "64", "65536");
    for (uint32_t u = 2; u <= 8; u += 3) {
        const size_t size = record(capture, u);
        printf("%5u", u);
        for (int k = 0; k < 3; k++) {
            double best = 1e9;
            for (int i = 0; i < rounds; i++) {
                const double took = replay(capture, size, lumps[k]);
                if (took < best)
                    best = took;
            }
            printf(" %10.2f", (double)size / best / 1e6);
        }
        printf("\n");
    }
    free(capture);
    return 0;
}
