/*
 * Records a noisy line: a sender's words through noise into a receiver, each symbol heard and recorded, and the capture written to a
 * file.
 *
 *   record FILE        20 words of width 2, drawn from a fixed seed
 *
 * Each call's bytes go to the file as they come, so a run of any length needs no more memory than one symbol's records.
 */
#include <inttypes.h>
#include <stdio.h>
#include <stdlib.h>

#include "demfizagu.h"

enum { WIDTH = 2, WINDOW = 32, SYMBOLS = 20, ROOM = 65, BYTES = 512, TOLD = 4 };

static void stop(const char *call, uint32_t number)
{
    fprintf(stderr, "record: %s answered %" PRIu32 "\n", call, number);
    exit(1);
}

/* Numbers that are the same on every machine: a 64-bit congruential generator, its upper half. */
static uint32_t draw(uint64_t *seed)
{
    *seed = *seed * 6364136223846793005u + 1442695040888963407u;
    return (uint32_t)(*seed >> 32);
}

static void put(FILE *file, const uint8_t *bytes, uint64_t count)
{
    if (fwrite(bytes, 1, count, file) != count) {
        fprintf(stderr, "record: the file cannot be written\n");
        exit(1);
    }
}

int main(int argc, char **argv)
{
    if (argc != 2) {
        fprintf(stderr, "usage: record FILE\n");
        return 2;
    }
    FILE *file = fopen(argv[1], "wb");
    if (!file) {
        fprintf(stderr, "record: %s cannot be opened\n", argv[1]);
        return 1;
    }
    size_t sender_words = demfizagu_sender_words(), receiver_words = demfizagu_receiver_words();
    uint64_t *sender = calloc(sender_words, sizeof *sender), *receiver = calloc(receiver_words, sizeof *receiver);
    if (!sender || !receiver)
        return 1;

    uint8_t bytes[BYTES];
    uint32_t words[ROOM];
    uint64_t told[TOLD], seed = 1, said = 0;
    uint32_t number = demfizagu_sender_open(sender, sender_words, WIDTH);
    if (number != DEMFIZAGU_DONE)
        stop("sender_open", number);
    number = demfizagu_receiver_open(receiver, receiver_words, WIDTH, WINDOW, DEMFIZAGU_FREE);
    if (number != DEMFIZAGU_DONE)
        stop("receiver_open", number);
    number = demfizagu_record_open(WIDTH, WINDOW, DEMFIZAGU_FREE, bytes, BYTES);
    if (number != DEMFIZAGU_DONE)
        stop("record_open", number);
    put(file, bytes, 4);

    for (int i = 0; i < SYMBOLS; i++) {
        int32_t points[4], heard[4];
        number = demfizagu_send(sender, sender_words, draw(&seed) % (1u << (3 + 2 * WIDTH)), points, 4);
        if (number != DEMFIZAGU_DONE)
            stop("send", number);
        for (int k = 0; k < 4; k++)
            heard[k] = 128 * points[k] + (int32_t)(draw(&seed) % 129) - 64;
        number = demfizagu_hear_recorded(receiver, receiver_words, heard, 4, words, ROOM, bytes, BYTES, told, TOLD);
        if (number != DEMFIZAGU_DONE)
            stop("hear_recorded", number);
        put(file, bytes, told[3]);
        said += told[1];
    }
    number = demfizagu_finish_recorded(receiver, receiver_words, words, ROOM, bytes, BYTES, told, TOLD);
    if (number != DEMFIZAGU_DONE)
        stop("finish_recorded", number);
    put(file, bytes, told[3]);
    said += told[1];
    if (fclose(file) != 0)
        return 1;
    printf("%d symbols, %" PRIu64 " words recorded\n", SYMBOLS, said);
    free(sender);
    free(receiver);
    return 0;
}
