/*
 * A line from words to points to noise to words. Each word is printed with the symbol at which it became final; the finish
 * then gives the rest.
 *
 *     line [WIDTH [NOISE [SEED [WORDS [WINDOW]]]]]
 *     line help
 *
 * WIDTH is 0 to 8 (2 if not said). NOISE is the deviation of the noise in hundredths of the unit of the points, which
 * stand 2 apart in each coordinate (25). SEED starts the generator of words and noise (1). WORDS is how many are sent (20).
 * WINDOW is how many symbols may wait undecided, 1 to 64 (64: this program reads a whole line, as the records clerk does).
 * The same five numbers print the same lines everywhere. What is no such number is refused, with exit status 2.
 */
#include <errno.h>
#include <inttypes.h>
#include <stdio.h>
#include <stdlib.h>
#include <string.h>

#include "demfizagu.h"

enum { ROOM = 65, TOLD = 3, FIRST_STATE = 0 };

/* A seeded generator of 32-bit numbers (the high half of a 64-bit one, SplitMix64). */
static uint32_t draw(uint64_t *seed)
{
    uint64_t z = *seed += 0x9e3779b97f4a7c15u;
    z = (z ^ (z >> 30)) * 0xbf58476d1ce4e5b9u;
    z = (z ^ (z >> 27)) * 0x94d049bb133111ebu;
    return (uint32_t)((z ^ (z >> 31)) >> 32);
}

/* Nearly normal noise with deviation 1: a sum of twelve even draws, in exact steps. */
static float noise(uint64_t *seed)
{
    int32_t sum = 0;
    for (int i = 0; i < 12; i++)
        sum += (int32_t)(draw(seed) >> 20);
    return (float)(sum - 6 * 4096) / 4096.0f;
}

/* What the line has sent and heard so far. */
struct line {
    uint64_t *sender, *receiver;
    size_t sender_words, receiver_words;
    uint32_t u, window;
    uint32_t *sent;       /* the words sent */
    size_t said, wrong;   /* how many words were said, and how many of them were not the word sent */
    int joined;           /* the next word is the first of a free start: its bits 1 and 2 are not known, and are zero */
};

static void stop(const char *what, uint32_t number)
{
    fprintf(stderr, "line: %s: number %" PRIu32 "\n", what, number);
    exit(1);
}

/* Prints words that are final now, after `symbols` symbols or at the finish. */
static void print_words(struct line *l, const char *when, size_t symbols, const uint32_t *words, uint64_t count)
{
    for (uint64_t i = 0; i < count; i++) {
        uint32_t sent = l->sent[l->said] & (l->joined ? ~(uint32_t)6 : ~(uint32_t)0);
        l->joined = 0;
        printf("%s %zu: word %zu is %" PRIu32, when, symbols, l->said + 1, words[i]);
        if (words[i] != sent)
            printf(", and %" PRIu32 " was sent", sent);
        printf("\n");
        l->wrong += words[i] != sent;
        l->said++;
    }
}

/*
 * One word: four coordinates of two points, as two float samples with noise, as four numbers for the receiver. A sample that is refused (5) stays in
 * the line, as a missing point. Gives the symbol's mark.
 */
static uint8_t transmit(struct line *l, uint32_t word, float deviation, uint64_t *seed, int32_t heard[4])
{
    int32_t points[4], pair[3];
    float samples[4];
    uint8_t mark = 0;
    uint32_t number = demfizagu_send(l->sender, l->sender_words, word, points, 4);
    if (number != DEMFIZAGU_DONE)
        stop("send", number);
    for (int i = 0; i < 4; i++)
        samples[i] = (float)points[i] + deviation * noise(seed);
    for (int i = 0; i < 2; i++) {
        number = demfizagu_sample(samples[2 * i], samples[2 * i + 1], pair, 3);
        if (number == DEMFIZAGU_COORDINATE)
            mark |= (uint8_t)(1 << i);
        else if (number != DEMFIZAGU_DONE)
            stop("sample", number);
        memcpy(heard + 2 * i, pair, 2 * sizeof *pair);
    }
    return mark;
}

static void finish(struct line *l, size_t symbols)
{
    uint32_t words[ROOM];
    uint64_t told[TOLD];
    uint32_t number = demfizagu_finish(l->receiver, l->receiver_words, words, ROOM, told, TOLD);
    if (number != DEMFIZAGU_DONE)
        stop("finish", number);
    print_words(l, "finish after", symbols, words, told[1]);
}

/* Hears one symbol. If the window is full: finish, open again, and hear it then. The new receiver joins a live line. */
static void hear(struct line *l, const int32_t heard[4], uint8_t mark, size_t symbols)
{
    uint32_t words[ROOM];
    uint64_t told[TOLD];
    uint32_t number = demfizagu_hear_marked(l->receiver, l->receiver_words, heard, 4, &mark, 1, words, ROOM, told, TOLD);
    if (number == DEMFIZAGU_FULL) {
        printf("symbol %zu: the window is full; finish and join the line again (bits 1 and 2 of the next word stay zero)\n",
               symbols);
        finish(l, symbols - 1);
        l->joined = 1;
        number = demfizagu_receiver_open(l->receiver, l->receiver_words, l->u, l->window, DEMFIZAGU_FREE);
        if (number == DEMFIZAGU_DONE)
            number = demfizagu_hear_marked(l->receiver, l->receiver_words, heard, 4, &mark, 1, words, ROOM, told, TOLD);
    }
    if (number != DEMFIZAGU_DONE)
        stop("hear", number);
    print_words(l, "symbol", symbols, words, told[1]);
}

#define USAGE \
    "usage: line [WIDTH [NOISE [SEED [WORDS [WINDOW]]]]]\n" \
    "WIDTH 0 to 8 (2), NOISE in hundredths of the points' unit (25), WINDOW 1 to 64 (64)\n"

/* The n-th argument, a decimal number of at most `most`; `otherwise` where there is none. */
static uint64_t argument(int argc, char **argv, int n, const char *name, uint64_t otherwise, uint64_t most)
{
    if (argc <= n)
        return otherwise;
    const char *text = argv[n];
    errno = 0;
    unsigned long long number = strtoull(text, NULL, 10);
    if (*text == '\0' || text[strspn(text, "0123456789")] != '\0' || errno != 0 || number > most) {
        fprintf(stderr, "line: %s is a number from 0 to %" PRIu64 ", not: %s\n" USAGE, name, most, text);
        exit(2);
    }
    return number;
}

int main(int argc, char **argv)
{
    if (argc == 2 && strcmp(argv[1], "help") == 0) {
        fputs(USAGE, stdout);
        return 0;
    }
    if (argc > 6) {
        fprintf(stderr, "line: one word too many: %s\n" USAGE, argv[6]);
        return 2;
    }
    struct line l = {0};
    l.u = (uint32_t)argument(argc, argv, 1, "WIDTH", 2, 8);
    float deviation = (float)argument(argc, argv, 2, "NOISE", 25, 100000) / 100.0f;
    uint64_t seed = argument(argc, argv, 3, "SEED", 1, UINT64_MAX);
    size_t count = (size_t)argument(argc, argv, 4, "WORDS", 20, 100000000);
    l.window = (uint32_t)argument(argc, argv, 5, "WINDOW", 64, 64);

    if (demfizagu_version() != DEMFIZAGU_VERSION)
        stop("the library is of another version", demfizagu_version());
    l.sender_words = demfizagu_sender_words();
    l.receiver_words = demfizagu_receiver_words();
    l.sender = malloc(l.sender_words * sizeof *l.sender);
    l.receiver = malloc(l.receiver_words * sizeof *l.receiver);
    l.sent = malloc((count + 1) * sizeof *l.sent);
    if (!l.sender || !l.receiver || !l.sent)
        stop("no memory", 0);

    uint32_t number = demfizagu_sender_open(l.sender, l.sender_words, l.u);
    if (number != DEMFIZAGU_DONE)
        stop("opening the sender", number);
    /* heard from its first symbol, so the start is the one where a sender begins */
    number = demfizagu_receiver_open(l.receiver, l.receiver_words, l.u, l.window, FIRST_STATE);
    if (number != DEMFIZAGU_DONE)
        stop("opening the receiver", number);

    for (size_t n = 0; n < count; n++) {
        int32_t heard[4];
        l.sent[n] = draw(&seed) & ((1u << (3 + 2 * l.u)) - 1);
        uint8_t mark = transmit(&l, l.sent[n], deviation, &seed, heard);
        hear(&l, heard, mark, n + 1);
    }
    finish(&l, count);
    printf("%zu words sent, %zu said, %zu wrong\n", count, l.said, l.wrong);
    free(l.sender);
    free(l.receiver);
    free(l.sent);
    return 0;
}
