/*
 * The stack that each call of the library takes, in bytes: each runs on a stack of its own that was painted before, and what is no longer paint was
 * taken. Prints one line a call, its name and the most that it took over lines of both maps, several widths, pieces and windows. Needs a POSIX system.
 * The first call of each kind runs unmeasured, so that the loader has resolved what it resolves at a first use.
 */
#define _XOPEN_SOURCE 600
#include <inttypes.h>
#include <stdio.h>
#include <stdlib.h>
#include <string.h>
#include <ucontext.h>

#include "demfizagu.h"

enum { STACK = 65536, PAINT = 0xa5, ROOM = 65, PIECE = 16, BYTES = 330 * PIECE, CAPTURE = 1 << 17, SYMBOLS = 64, CALLS = 32 };

static unsigned char stack[STACK];
static ucontext_t back, there;
static void (*run)(void);

/* what a call is lent */
static uint64_t sender[8], receiver[256], replay[512], told[4], numbers[16 * (SYMBOLS + 1)];
static int32_t points[4 * PIECE], heard[4 * SYMBOLS], out_numbers[4 * PIECE];
static uint32_t words[ROOM + PIECE], states[SYMBOLS + 1], parts[6 * SYMBOLS], map, u, window, start, number;
static float floats[4 * PIECE];
static uint8_t marks[2 * PIECE], bytes[BYTES], capture[CAPTURE], line[64];
static size_t symbols, captured, lump, place, list;

static struct {
    const char *name;
    size_t most;
} calls[CALLS];

static void nothing(void) { number = 0; }
static void sender_open(void) { number = demfizagu_sender_open(sender, 8, u); }
static void sender_open_map(void) { number = demfizagu_sender_open_map(sender, 8, map, u); }
static void send_one(void) { number = demfizagu_send(sender, 8, words[0], points, 4); }
static void send_list(void) { number = demfizagu_send_list(sender, 8, words, PIECE, points, 4 * PIECE, told, 3); }
static void receiver_open(void) { number = demfizagu_receiver_open(receiver, 256, u, window, start); }
static void receiver_open_map(void) { number = demfizagu_receiver_open_map(receiver, 256, map, u, window, start); }
static void receiver_open_plain(void) { number = demfizagu_receiver_open_plain(receiver, 256, u); }
static void hear(void) { number = demfizagu_hear(receiver, 256, heard, 4 * symbols, words, ROOM + PIECE, told, 3); }
static void hear_marked(void) { number = demfizagu_hear_marked(receiver, 256, heard, 4 * symbols, marks, symbols, words, ROOM + PIECE, told, 3); }
static void finish(void) { number = demfizagu_finish(receiver, 256, words, ROOM, told, 3); }
static void pending(void) { number = demfizagu_pending(receiver, 256); }
static void is_open(void) { number = demfizagu_is_open(receiver, 256); }
static void sample(void) { number = demfizagu_sample(floats[0], floats[1], out_numbers, 3); }
static void samples(void) { number = demfizagu_samples(floats, 4 * PIECE, out_numbers, 4 * PIECE, told, 3); }
static void samples_marked(void) { number = demfizagu_samples_marked(floats, 4 * PIECE, marks, 2 * PIECE, out_numbers, 4 * PIECE, told, 3); }
static void record_open(void) { number = demfizagu_record_open(u, window, start, bytes, BYTES); }
static void record_open_map(void) { number = demfizagu_record_open_map(map, u, window, start, bytes, BYTES); }
static void hear_recorded(void)
{
    number = demfizagu_hear_recorded(receiver, 256, heard, 4 * symbols, words, ROOM + PIECE, bytes, BYTES, told, 4);
}
static void hear_marked_recorded(void)
{
    number = demfizagu_hear_marked_recorded(receiver, 256, heard, 4 * symbols, marks, symbols, words, ROOM + PIECE, bytes, BYTES, told, 4);
}
static void finish_recorded(void) { number = demfizagu_finish_recorded(receiver, 256, words, ROOM, bytes, BYTES, told, 4); }
static void replay_start(void) { number = demfizagu_replay_start(replay, 512); }
static void replay_feed(void) { number = demfizagu_replay_feed(replay, 512, capture + place, lump, line, 64, told, 1); }
static void replay_end(void) { number = demfizagu_replay_end(replay, 512, line, 64, told, 1); }
static void check_card(void)
{
    number = demfizagu_check_card(map, u, heard, 4 * list, states, list + 1, parts, 6 * list, numbers, 16 * (list + 1));
}

static void enter(void) { run(); }

/* How far down the painted stack a call went. */
static size_t taken(void (*call)(void))
{
    run = call;
    memset(stack, PAINT, STACK);
    if (getcontext(&there) != 0)
        exit(2);
    there.uc_stack.ss_sp = stack;
    there.uc_stack.ss_size = STACK;
    there.uc_link = &back;
    makecontext(&there, enter, 0);
    if (swapcontext(&back, &there) != 0)
        exit(2);
    size_t i = 0;
    while (i < STACK && stack[i] == PAINT)
        i++;
    return STACK - i;
}

/* Measures a call that can be made again with the same arguments, or goes on from where the last one left off. */
static void measure(const char *name, void (*call)(void))
{
    static size_t least;
    size_t i = 0;
    if (least == 0)
        least = taken(nothing);
    while (i < CALLS && calls[i].name != NULL && strcmp(calls[i].name, name) != 0)
        i++;
    if (i == CALLS)
        exit(2);
    if (calls[i].name == NULL)
        call();
    calls[i].name = name;
    size_t more = taken(call) - least;
    if (more > calls[i].most)
        calls[i].most = more;
}

static uint32_t draw(void)
{
    static uint64_t seed = 1;
    uint64_t z = seed += 0x9e3779b97f4a7c15u;
    z = (z ^ (z >> 30)) * 0xbf58476d1ce4e5b9u;
    z = (z ^ (z >> 27)) * 0x94d049bb133111ebu;
    return (uint32_t)((z ^ (z >> 31)) >> 32);
}

/* Some words sent, and heard with noise; every eighth point is missing, and now and then one is a spark. */
static void next_piece(size_t many)
{
    for (size_t i = 0; i < PIECE; i++)
        words[i] = draw() & ((1u << (3 + 2 * u)) - 1);
    measure("demfizagu_send", send_one);
    measure("demfizagu_send_list", send_list);
    symbols = many;
    for (size_t i = 0; i < 4 * PIECE; i++) {
        floats[i] = (float)points[i] + (float)(int32_t)(draw() % 4096) / 2048.0f - 1.0f;
        heard[i] = draw() % 64 == 0 ? 8192 : 128 * points[i] + (int32_t)(draw() % 257) - 128;
    }
    for (size_t i = 0; i < 2 * PIECE; i++)
        marks[i] = draw() % 8 == 0;
}

static void keep(uint64_t count)
{
    if (captured + count > CAPTURE)
        exit(2);
    memcpy(capture + captured, bytes, count);
    captured += count;
}

/* A capture of noisy pieces, replayed in lumps of each size. */
static void record_and_replay(void)
{
    static const size_t sizes[] = {1, 7, 64, 1000, CAPTURE};
    captured = 0;
    receiver_open_map();
    measure("demfizagu_record_open_map", record_open_map);
    keep(4);
    for (int i = 0; i < 24; i++) {
        next_piece(1 + (size_t)i % PIECE);
        if (i % 2 == 0)
            measure("demfizagu_hear_recorded", hear_recorded);
        else
            measure("demfizagu_hear_marked_recorded", hear_marked_recorded);
        keep(told[3]);
    }
    measure("demfizagu_finish_recorded", finish_recorded);
    keep(told[3]);
    for (size_t i = 0; i < sizeof sizes / sizeof *sizes; i++) {
        measure("demfizagu_replay_start", replay_start);
        for (place = 0; place < captured; place += lump) {
            lump = captured - place < sizes[i] ? captured - place : sizes[i];
            measure("demfizagu_replay_feed", replay_feed);
        }
        measure("demfizagu_replay_end", replay_end);
    }
}

static void hear_a_line(void)
{
    measure("demfizagu_sender_open_map", sender_open_map);
    measure("demfizagu_receiver_open_map", receiver_open_map);
    measure("demfizagu_is_open", is_open);
    for (int i = 0; i < 24; i++) {
        next_piece(1 + (size_t)i % PIECE);
        measure("demfizagu_hear", hear);
        measure("demfizagu_hear_marked", hear_marked);
        measure("demfizagu_pending", pending);
    }
    measure("demfizagu_finish", finish);
    measure("demfizagu_sample", sample);
    measure("demfizagu_samples", samples);
    measure("demfizagu_samples_marked", samples_marked);
}

/* Cards that are followed to their end: no symbol of theirs leads from state to state but by numbers of 0. */
static void check_cards(void)
{
    memset(states, 0, sizeof states);
    memset(parts, 0, sizeof parts);
    memset(numbers, 0, sizeof numbers);
    for (list = 1; list <= SYMBOLS; list += 21) {
        for (size_t i = 0; i < 4 * list; i++)
            heard[i] = 128 + (int32_t)(draw() % 65) - 32;
        measure("demfizagu_check_card", check_card);
    }
}

int main(void)
{
    static const uint32_t lines[][4] = {{0, 0, 64, 16}, {0, 2, 32, 0}, {0, 5, 64, 16}, {0, 8, 64, 3}, {0, 8, 1, 16}, {1, 0, 64, 16}, {1, 2, 64, 0}, {1, 8, 64, 16}};
    for (size_t i = 0; i < sizeof lines / sizeof *lines; i++) {
        map = lines[i][0], u = lines[i][1], window = lines[i][2], start = lines[i][3];
        hear_a_line();
        record_and_replay();
        check_cards();
    }
    measure("demfizagu_sender_open", sender_open);
    measure("demfizagu_receiver_open", receiver_open);
    measure("demfizagu_receiver_open_plain", receiver_open_plain);
    measure("demfizagu_record_open", record_open);
    for (size_t i = 0; i < CALLS && calls[i].name != NULL; i++)
        printf("%s %zu\n", calls[i].name, calls[i].most);
    return 0;
}
