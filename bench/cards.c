/*
 * How long the check of another maker's decoder takes: cards of 64 symbols on each map, sent clean, with noise, and received far outside;
 * beside it what a receiver takes to hear and finish the same 64 symbols. The card's sequence is the sender's own, and its numbers are 0,
 * which no sum is below: a clean line is accepted, any other is refused by the last comparison of all, so that every check goes through
 * the whole list. Prints microseconds a card, the best of some rounds. Built and run by bench/run --cards.
 *
 *     cards [ROUNDS]
 */
#define _POSIX_C_SOURCE 200809L
#include <stdio.h>
#include <stdlib.h>
#include <time.h>

#include "demfizagu.h"

enum { SYMBOLS = 64, TIMES = 100, SENDER = 16, RECEIVER = 256 };

struct card {
    int32_t coordinates[4 * SYMBOLS];
    uint32_t states[SYMBOLS + 1], symbols[6 * SYMBOLS];
    uint64_t numbers[16 * (SYMBOLS + 1)];
};

static const char *const maps[] = {"round", "square"}, *const lines[] = {"clean", "noisy", "far"};
static uint32_t seed = 1;

static uint32_t draw(uint32_t below)
{
    seed = seed * 1664525u + 1013904223u;
    return (uint32_t)((uint64_t)seed * below >> 32);
}

/* What is received where the coordinate c was sent. */
static int32_t received(int line, int32_t c)
{
    switch (line) {
    case 0: return 128 * c;
    case 1: return 128 * c + (int32_t)(draw(161) + draw(161)) - 160;
    default: return (draw(2) ? 1 : -1) * (int32_t)(6000 + draw(2193));
    }
}

/* A line of 64 words, and the sequence that its sender went through, by the rule of turns and states. */
static void make(struct card *c, uint32_t map, uint32_t u, int line)
{
    uint64_t tx[SENDER];
    uint32_t state = 0, turn = 0, low = (1u << u) - 1;
    if (demfizagu_sender_open_map(tx, SENDER, map, u) != 0)
        exit(1);
    for (int i = 0; i < SYMBOLS; i++) {
        uint32_t word = draw(1u << (3 + 2 * u)), i1 = word & 1;
        int32_t point[4];
        if (demfizagu_send(tx, SENDER, word, point, 4) != 0)
            exit(1);
        for (int k = 0; k < 4; k++)
            c->coordinates[4 * i + k] = received(line, point[k]);
        turn = (turn + (word >> 1)) & 3;
        uint32_t symbol[6] = {state & 1, i1, turn & 1, turn >> 1, word >> 3 & low, word >> (3 + u) & low};
        for (int k = 0; k < 6; k++)
            c->symbols[6 * i + k] = symbol[k];
        c->states[i] = state;
        uint32_t w1 = state >> 3, w2 = state >> 2 & 1, w3 = state >> 1 & 1;
        state = w3 << 3 | (state & 1) << 2 | (w2 ^ (turn & 1)) << 1 | (w1 ^ w3 ^ i1);
    }
    c->states[SYMBOLS] = state;
}

static uint32_t check(const struct card *c, uint32_t map, uint32_t u)
{
    return demfizagu_check_card(map, u, c->coordinates, 4 * SYMBOLS, c->states, SYMBOLS + 1, c->symbols, 6 * SYMBOLS, c->numbers,
                                16 * (SYMBOLS + 1));
}

/* A receiver hears the list whole, and finishes. */
static uint32_t decode(const struct card *c, uint32_t map, uint32_t u)
{
    uint64_t rx[RECEIVER], told[3];
    uint32_t out[2 * SYMBOLS];
    return demfizagu_receiver_open_map(rx, RECEIVER, map, u, SYMBOLS, DEMFIZAGU_FREE)
        | demfizagu_hear(rx, RECEIVER, c->coordinates, 4 * SYMBOLS, out, 2 * SYMBOLS, told, 3)
        | demfizagu_finish(rx, RECEIVER, out, 2 * SYMBOLS, told, 3);
}

static double now(void)
{
    struct timespec t;
    clock_gettime(CLOCK_THREAD_CPUTIME_ID, &t);
    return (double)t.tv_sec * 1e6 + (double)t.tv_nsec / 1e3;
}

/* Microseconds of one call, the best of some rounds; each call must answer this. */
static double measure(uint32_t (*call)(const struct card *, uint32_t, uint32_t), uint32_t answer, const struct card *c, uint32_t map, uint32_t u,
                      int rounds)
{
    double best = 1e9;
    for (int r = 0; r < rounds; r++) {
        double from = now();
        for (int k = 0; k < TIMES; k++)
            if (call(c, map, u) != answer)
                exit(1);
        double took = (now() - from) / TIMES;
        if (took < best)
            best = took;
    }
    return best;
}

int main(int argc, char **argv)
{
    static struct card c;
    int rounds = argc > 1 ? atoi(argv[1]) : 20;
    if (demfizagu_sender_words() > SENDER || demfizagu_receiver_words() > RECEIVER)
        return 1;
    printf("| map | u | line | the check of 64 symbols | hearing and finishing them |\n|---|---|---|---|---|\n");
    for (uint32_t map = 0; map < 2; map++)
        for (uint32_t u = 0; u <= 8; u += 2)
            for (int line = 0; line < 3; line++) {
                make(&c, map, u, line);
                printf("| %s | %u | %s | %.1f | %.1f |\n", maps[map], u, lines[line], measure(check, line == 0, &c, map, u, rounds),
                       measure(decode, 0, &c, map, u, rounds));
            }
    return 0;
}
