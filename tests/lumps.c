/*
 * Runs the public cases of captures (standard input: `replay HEX`, then `= LINE`) through the library's replay, cut into lumps of
 * 1, 2, 3 and 7 bytes, into lumps of random sizes with empty ones among them, and whole; and asks what the header says of refused
 * calls. Built and run by tests/captures. Prints how many runs agreed; what differs is printed, and the status is then 1.
 */
#include <stdio.h>
#include <stdlib.h>
#include <string.h>

#include "demfizagu.h"

enum { MOST = 1 << 20, LINE = 80, TOLD = 3, STATE = 300, RANDOM = 20, PAINT = 0x5a };

static uint8_t bytes[MOST], line[LINE], said[LINE];
static uint64_t state[STATE], before[STATE], told[TOLD];
static char text[2 * MOST + 64], wanted[256];
static size_t size, said_size, runs, bad;

static void fail(const char *what)
{
    bad++;
    printf("tests/lumps.c: %s\n  capture %.200s\n  wanted %s  said %.*s\n", what, text, wanted, (int)said_size, (char *)said);
}

/* What a call said; the other places of `line` and `told` must stay. */
static void hear(uint32_t number)
{
    if (number != 0 || told[0] > 64 || told[1] != PAINT || told[2] != PAINT)
        fail("a number, or what is told");
    for (size_t i = (size_t)told[0]; i < LINE; i++)
        if (line[i] != PAINT)
            fail("a place behind the line");
    if (told[0] != 0 && said_size != 0)
        fail("a second line");
    memcpy(said + said_size, line, said_size == 0 ? (size_t)told[0] : 0);
    said_size += (size_t)told[0];
    memset(line, PAINT, LINE);
    told[0] = 99;
}

static void feed(const uint8_t *lump, size_t n)
{
    const size_t words = demfizagu_replay_words();
    hear(demfizagu_replay_feed(state, STATE, lump, n, line, LINE, told, TOLD));
    for (size_t i = words; i < STATE; i++)
        if (state[i] != PAINT)
            fail("a word behind the state");
}

/* Calls that are refused: nothing is taken. */
static void refuse(const uint8_t *lump, size_t n)
{
    const size_t words = demfizagu_replay_words();
    memcpy(before, state, sizeof state);
    if (demfizagu_replay_feed(state, STATE, lump, n, line, 63, told, TOLD) != 8 || told[0] != 0)
        fail("no 8 for a short line");
    told[0] = 99;
    if (demfizagu_replay_feed(state, STATE, lump, n, line, LINE, told, 0) != 8 || told[0] != 99)
        fail("no 8 for a short told");
    if (demfizagu_replay_end(state, STATE, line, 63, told, TOLD) != 8 || told[0] != 0)
        fail("no 8 at the end");
    if (demfizagu_replay_feed(state, words - 1, lump, n, line, LINE, told, TOLD) != 9 || told[0] != 0)
        fail("no 9 for a short state");
    if (memcmp(before, state, sizeof state) != 0 || told[1] != PAINT)
        fail("a refused call wrote");
    for (size_t i = 0; i < LINE; i++)
        if (line[i] != PAINT)
            fail("a refused call said something");
    told[0] = 99;
}

static void start(void)
{
    for (size_t i = 0; i < STATE; i++)
        state[i] = PAINT;
    memset(line, PAINT, LINE);
    told[0] = 99, told[1] = told[2] = PAINT;
    said_size = 0;
    if (demfizagu_replay_feed(state, STATE, bytes, 0, line, LINE, told, TOLD) != 9 || told[0] != 0)
        fail("no 9 before a start");
    if (demfizagu_replay_start(state, demfizagu_replay_words() - 1) != 8 || state[0] != PAINT)
        fail("no 8 for a start");
    if (demfizagu_replay_start(state, STATE) != 0)
        fail("a start");
}

static void end(void)
{
    hear(demfizagu_replay_end(state, STATE, line, LINE, told, TOLD));
    if (demfizagu_replay_end(state, STATE, line, LINE, told, TOLD) != 9 || told[0] != 0)
        fail("an end after the end");
    if (said_size != strlen(wanted) || memcmp(said, wanted, said_size) != 0)
        fail("another line");
    runs++;
}

/* Lumps of a size, or of random sizes where it is 0. Random runs go on in a copy now and then, and try refused calls. */
static void cut(size_t lump, uint32_t seed)
{
    start();
    for (size_t at = 0; at < size;) {
        size_t n = lump != 0 ? lump : (seed = seed * 1664525u + 1013904223u) >> 28;
        if (n > size - at)
            n = size - at;
        feed(bytes + at, n);
        at += n;
        if (lump == 0 && seed % 7 == 0)
            refuse(bytes, size);
    }
    if (lump == 0)
        feed(bytes, 0);
    end();
}

static int digit(char c)
{
    return c <= '9' ? c - '0' : c - 'a' + 10;
}

int main(void)
{
    static const size_t lumps[] = {1, 2, 3, 7, MOST};
    while (fgets(text, sizeof text, stdin) != NULL) {
        char *hex = text + strlen("replay ");
        if (strncmp(text, "replay ", strlen("replay ")) != 0 || fgets(wanted, sizeof wanted, stdin) == NULL)
            continue;
        memmove(wanted, wanted + 2, strlen(wanted) - 1);
        wanted[strcspn(wanted, "\n")] = 0;
        for (size = 0; hex[0] >= '0' && hex[1] >= '0'; hex += 2)
            bytes[size++] = (uint8_t)(16 * digit(hex[0]) + digit(hex[1]));
        for (size_t k = 0; k < sizeof lumps / sizeof *lumps; k++)
            cut(lumps[k], 0);
        for (uint32_t k = 1; k <= RANDOM; k++)
            cut(0, 2654435761u * k);
    }
    /* forged states do no harm: every word out of range, and at random */
    for (uint32_t k = 0, seed = 7; k < 20000; k++) {
        demfizagu_replay_start(state, STATE);
        for (int i = 0; i < 4; i++) {
            seed = seed * 1664525u + 1013904223u;
            state[1 + (seed >> 8) % 229] = (uint64_t)seed << (seed >> 27);
        }
        for (uint32_t i = 0; i < 40; i++)
            bytes[i] = (uint8_t)(1 + i % 4);
        if (demfizagu_replay_feed(state, STATE, bytes, 40, line, LINE, told, TOLD) > 9 || told[0] > 64)
            fail("a forged state");
        demfizagu_replay_end(state, STATE, line, LINE, told, TOLD);
    }
    printf("tests/lumps.c: %zu runs, %zu differ\n", runs, bad);
    return bad != 0 || runs == 0;
}
