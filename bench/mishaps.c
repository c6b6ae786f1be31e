/*
 * What two mishaps do, in numbers. A symbol that is refused with a 5: dropped, or heard with the point at fault marked as missing. And a capture with
 * one bit flipped: how many of them a replay still agrees with.
 *
 *     mishaps
 */
#include <inttypes.h>
#include <stdio.h>
#include <stdlib.h>
#include <string.h>

#include "demfizagu.h"

enum { WIDTH = 2, LINES = 1000, WORDS = 100, HURT = 50, ROOM = 65, CAPTURE = 4 + 14 * WORDS + 1 };

static uint64_t sender[8], receiver[256], replay[512], told[4], seed = 1;
static uint32_t sent[WORDS], said[WORDS + ROOM];
static int32_t heard[4 * WORDS];

static uint32_t draw(void)
{
    uint64_t z = seed += 0x9e3779b97f4a7c15u;
    z = (z ^ (z >> 30)) * 0xbf58476d1ce4e5b9u;
    z = (z ^ (z >> 27)) * 0x94d049bb133111ebu;
    return (uint32_t)((z ^ (z >> 31)) >> 32);
}

static void must(uint32_t number)
{
    if (number != DEMFIZAGU_DONE) {
        fprintf(stderr, "mishaps: number %" PRIu32 "\n", number);
        exit(2);
    }
}

/* Words, their points 128 times, and nearly normal noise of deviation 32: a quarter of the points' unit. */
static void send_a_line(void)
{
    must(demfizagu_sender_open(sender, 8, WIDTH));
    for (int n = 0; n < WORDS; n++) {
        sent[n] = draw() & ((1u << (3 + 2 * WIDTH)) - 1);
        must(demfizagu_send(sender, 8, sent[n], heard + 4 * n, 4));
        for (int i = 0; i < 4; i++) {
            int32_t sum = 0;
            for (int k = 0; k < 12; k++)
                sum += (int32_t)(draw() >> 20);
            heard[4 * n + i] = 128 * heard[4 * n + i] + (sum - 6 * 4096) / 128;
        }
    }
}

/* Hears the line; `dropped` leaves the symbol HURT out, else its first point is missing. How many words of other symbols are wrong? */
static int wrong_words(int dropped)
{
    static const uint8_t mark = 1;
    size_t count = 0;
    int wrong = 0;
    must(demfizagu_receiver_open(receiver, 256, WIDTH, 64, 0));
    for (size_t n = 0; n < WORDS; n++) {
        told[1] = 0;
        if (n != HURT)
            must(demfizagu_hear(receiver, 256, heard + 4 * n, 4, said + count, ROOM, told, 3));
        else if (!dropped)
            must(demfizagu_hear_marked(receiver, 256, heard + 4 * n, 4, &mark, 1, said + count, ROOM, told, 3));
        count += told[1];
    }
    must(demfizagu_finish(receiver, 256, said + count, ROOM, told, 3));
    for (size_t n = 0; n < WORDS; n++)
        wrong += n != HURT && said[n - (dropped && n > HURT)] != sent[n];
    return wrong;
}

static size_t record(uint8_t *capture)
{
    size_t count = 4;
    send_a_line();
    must(demfizagu_receiver_open(receiver, 256, WIDTH, 64, 0));
    must(demfizagu_record_open(WIDTH, 64, 0, capture, 4));
    for (int n = 0; n < WORDS; n++, count += told[3])
        must(demfizagu_hear_recorded(receiver, 256, heard + 4 * n, 4, said, ROOM, capture + count, CAPTURE - count, told, 4));
    must(demfizagu_finish_recorded(receiver, 256, said, ROOM, capture + count, CAPTURE - count, told, 4));
    return count + told[3];
}

static int agrees(const uint8_t *capture, size_t length)
{
    uint8_t line[64];
    must(demfizagu_replay_start(replay, 512));
    must(demfizagu_replay_feed(replay, 512, capture, length, line, 64, told, 1));
    if (told[0] != 0)
        return 0;
    must(demfizagu_replay_end(replay, 512, line, 64, told, 1));
    return told[0] > 6 && memcmp(line, "agree ", 6) == 0;
}

int main(void)
{
    static uint8_t capture[CAPTURE];
    int drop = 0, miss = 0, agreed = 0;
    for (int i = 0; i < LINES; i++) {
        send_a_line();
        drop += wrong_words(1);
        miss += wrong_words(0);
    }
    printf("%d lines of %d words with one symbol refused: words of other symbols wrong, dropped %d, its point marked as missing %d\n", LINES, WORDS, drop, miss);
    size_t length = record(capture);
    for (size_t bit = 0; bit < 8 * length; bit++) {
        capture[bit / 8] ^= (uint8_t)(1 << bit % 8);
        agreed += agrees(capture, length);
        capture[bit / 8] ^= (uint8_t)(1 << bit % 8);
    }
    printf("a capture of %d symbols, each of its %zu bits flipped: %d still agree\n", WORDS, 8 * length, agreed);
    return 0;
}
