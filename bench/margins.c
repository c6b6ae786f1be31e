/*
 * How many symbols are pending on a line whose noise stays in a box, beside what crates/margins proves: random words through the
 * library's sender, noise up to the margin on every coordinate, the library's receiver. Prints a table, a row for each row of
 * margins/proofs/Instances. Every word must come back and nothing may be refused. Built and run by bench/run --margins.
 *
 *     margins [SYMBOLS]        for each row, 10000000 if not said
 *
 * Noise goes by blocks of 32 symbols, of four kinds: anywhere in the box; each coordinate at one end or the other, which is a corner;
 * all at one corner; and at an end or at 0. Every 1000 symbols both ends are opened again, so a free start is met often.
 */
#include <stdio.h>
#include <stdlib.h>

#include "demfizagu.h"

enum { ROOM = 65, BLOCK = 32, RUN = 1000 };

struct row {
    uint32_t window, start;
    int crowded, off;
    uint32_t proved;
};

static const struct row rows[] = {
    {64, DEMFIZAGU_FREE, 0, 61, 64}, {64, 0, 0, 66, 64}, {32, DEMFIZAGU_FREE, 1, 56, 32}, {32, 0, 1, 65, 32}, {32, 0, 0, 20, 32},
    {32, DEMFIZAGU_FREE, 0, 3, 32},  {32, DEMFIZAGU_FREE, 0, 0, 32}, {26, 0, 0, 0, 26}, {14, DEMFIZAGU_FREE, 1, 0, 14}, {8, 0, 1, 0, 8},
};

static uint64_t seed;

static uint32_t draw(void)
{
    seed ^= seed << 13, seed ^= seed >> 7, seed ^= seed << 17;
    return (uint32_t)(seed >> 32);
}

static int32_t noise(int kind, int off, int i, uint32_t corner)
{
    switch (kind) {
    case 0:
        return (int32_t)(draw() % (uint32_t)(2 * off + 1)) - off;
    case 1:
        return draw() & 1 ? off : -off;
    case 2:
        return corner >> i & 1 ? off : -off;
    default:
        return (int32_t)(draw() % 3 - 1) * off;
    }
}

static int crowded(uint32_t map, uint32_t u)
{
    return map == DEMFIZAGU_SQUARE || (u != 1 && u != 4 && u != 5);
}

static void need(int good, const char *what)
{
    if (!good)
        fprintf(stderr, "margins: %s\n", what), exit(1);
}

/* The most symbols pending in `symbols` of one map and width. */
static uint32_t most(const struct row *row, uint32_t map, uint32_t u, long symbols)
{
    static uint64_t tx[64], rx[1024];
    const size_t t = demfizagu_sender_words(), r = demfizagu_receiver_words();
    uint32_t top = 0, sent[RUN], said[ROOM];
    uint64_t told[3];
    need(t <= 64 && r <= 1024, "a state is longer than it was");
    for (long done = 0; done < symbols; done += RUN) {
        long back = 0, kind = 0;
        uint32_t corner = 0;
        need(demfizagu_sender_open_map(tx, t, map, u) == 0 && demfizagu_receiver_open_map(rx, r, map, u, row->window, row->start) == 0, "an opening was refused");
        for (int k = 0; k <= RUN; k++) {
            if (k < RUN) {
                int32_t point[4];
                if (k % BLOCK == 0)
                    kind = draw() % 4, corner = draw();
                sent[k] = draw() & ((1u << (3 + 2 * u)) - 1);
                need(demfizagu_send(tx, t, sent[k], point, 4) == 0, "a word was refused");
                for (int i = 0; i < 4; i++)
                    point[i] = 128 * point[i] + noise((int)kind, row->off, i, corner);
                need(demfizagu_hear(rx, r, point, 4, said, ROOM, told, 3) == 0, "a symbol was refused");
                const uint32_t pending = demfizagu_pending(rx, r);
                if (pending > top)
                    top = pending;
            } else
                need(demfizagu_finish(rx, r, said, ROOM, told, 3) == 0, "a finish was refused");
            /* with a free start bits 1 and 2 of the first word are 0 */
            for (uint64_t i = 0; i < told[1]; i++, back++)
                need(said[i] == (back == 0 && row->start == DEMFIZAGU_FREE ? sent[0] & ~6u : sent[back]), "a word is wrong");
        }
        need(back == RUN, "words are missing");
    }
    return top;
}

int main(int argc, char **argv)
{
    const long symbols = argc > 1 ? atol(argv[1]) : 10000000;
    printf("| window | start | accords | at most off | proved pending | most measured | at |\n|---|---|---|---|---|---|---|\n");
    for (size_t i = 0; i < sizeof rows / sizeof *rows; i++) {
        const struct row *row = &rows[i];
        uint32_t top = 0, at_map = 0, at_u = 0;
        int count = 0;
        for (int pass = 0; pass < 2; pass++)
            for (uint32_t map = 0; map < 2; map++)
                for (uint32_t u = 0; u < 9; u++) {
                    if ((map == DEMFIZAGU_SQUARE && u % 2) || (row->crowded && !crowded(map, u)))
                        continue;
                    if (pass == 0) {
                        count++;
                        continue;
                    }
                    seed = 0x9e3779b97f4a7c15u * (1 + 64 * i + 16 * map + u);
                    const uint32_t n = most(row, map, u, symbols / count + RUN);
                    if (n > top)
                        top = n, at_map = map, at_u = u;
                }
        printf("| %u | %s | %s | %d | %u | %u | %s %u |\n", row->window, row->start ? "free" : "0", row->crowded ? "crowded" : "any", row->off, row->proved, top, at_map ? "square" : "round", at_u);
        fflush(stdout);
        need(top <= row->proved, "more pending than was proved");
    }
    return 0;
}
