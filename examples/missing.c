/*
 * A front end that drops samples: words are sent, some points never arrive, and the receiver is told which.
 *
 *   missing        16 words of width 1, drawn from a fixed seed
 *
 * The lowest three bits of a word are in both points of its symbol and tied to the symbols around it, so that they often come through.
 * Each further bit is in one point alone: where that is missing it is heard as 0.
 */
#include <inttypes.h>
#include <stdio.h>
#include <stdlib.h>

#include "demfizagu.h"

enum { WIDTH = 1, WINDOW = 32, SYMBOLS = 16, ROOM = 65, TOLD = 3 };

/* what the front end never got: 1 the first point of a symbol, 2 the second, 3 both */
static const uint8_t marks[SYMBOLS] = {0, 0, 0, 1, 0, 0, 2, 0, 0, 3, 0, 0, 1, 2, 0, 0};

static void stop(const char *call, uint32_t number)
{
    fprintf(stderr, "missing: %s answered %" PRIu32 "\n", call, number);
    exit(1);
}

/* Numbers that are the same on every machine: a 64-bit congruential generator, its upper half. */
static uint32_t draw(uint64_t *seed)
{
    *seed = *seed * 6364136223846793005u + 1442695040888963407u;
    return (uint32_t)(*seed >> 32);
}

int main(void)
{
    size_t sender_words = demfizagu_sender_words(), receiver_words = demfizagu_receiver_words();
    uint64_t *sender = calloc(sender_words, sizeof *sender), *receiver = calloc(receiver_words, sizeof *receiver);
    if (!sender || !receiver)
        return 1;
    uint32_t number = demfizagu_sender_open(sender, sender_words, WIDTH);
    if (number != DEMFIZAGU_DONE)
        stop("sender_open", number);
    number = demfizagu_receiver_open(receiver, receiver_words, WIDTH, WINDOW, 0);
    if (number != DEMFIZAGU_DONE)
        stop("receiver_open", number);

    /* the front end's floats, and a byte for each sample: 1 where it is missing */
    float floats[4 * SYMBOLS];
    uint8_t gone[2 * SYMBOLS];
    uint32_t sent[SYMBOLS], heard[SYMBOLS + ROOM];
    uint64_t seed = 1, told[TOLD];
    for (int i = 0; i < SYMBOLS; i++) {
        int32_t points[4];
        sent[i] = draw(&seed) % (1u << (3 + 2 * WIDTH));
        number = demfizagu_send(sender, sender_words, sent[i], points, 4);
        if (number != DEMFIZAGU_DONE)
            stop("send", number);
        for (int k = 0; k < 4; k++)
            floats[4 * i + k] = (float)points[k] + ((float)(draw(&seed) % 65) - 32) / 256;
        gone[2 * i] = marks[i] % 2;
        gone[2 * i + 1] = marks[i] / 2;
    }

    int32_t piece[4 * SYMBOLS];
    number = demfizagu_samples_marked(floats, 4 * SYMBOLS, gone, 2 * SYMBOLS, piece, 4 * SYMBOLS, told, TOLD);
    if (number != DEMFIZAGU_DONE)
        stop("samples_marked", number);
    number = demfizagu_hear_marked(receiver, receiver_words, piece, 4 * SYMBOLS, marks, SYMBOLS, heard, SYMBOLS, told, TOLD);
    if (number != DEMFIZAGU_DONE)
        stop("hear_marked", number);
    uint64_t count = told[1];
    number = demfizagu_finish(receiver, receiver_words, heard + count, ROOM, told, TOLD);
    if (number != DEMFIZAGU_DONE)
        stop("finish", number);
    count += told[1];

    static const char *const missed[] = {"", ", first point missing", ", second point missing", ", both points missing"};
    for (uint64_t i = 0; i < count; i++)
        printf("word %2" PRIu64 ": sent %2" PRIu32 ", heard %2" PRIu32 "%s\n", i, sent[i], heard[i], missed[marks[i]]);
    free(sender);
    free(receiver);
    return 0;
}
