/*
 * Another maker's decoder: a signal card was given two symbols, and hands over the sequence that it chose and the numbers that it says
 * are the least sums into each state. The check accepts only a sequence that is allowed and nearest, whatever the card sent.
 *
 *   card        what the check says of this card, of one whose ties fell another way, and of some that went wrong
 */
#include <inttypes.h>
#include <stdio.h>
#include <string.h>

#include "demfizagu.h"

enum { WIDTH = 2, SYMBOLS = 2, COORDINATES = 4 * SYMBOLS, STATES = SYMBOLS + 1, PARTS = 6 * SYMBOLS, NUMBERS = 16 * STATES };

struct card {
    int32_t coordinates[COORDINATES];
    uint32_t states[STATES];
    uint32_t symbols[PARTS];
    uint64_t numbers[NUMBERS];
};

static const struct card sound = {
    /* what was heard: x, y of the first point, x, y of the second */
    {64, 145, -216, 307, -119, 32, 29, -320},
    /* the state at the start, and after each symbol */
    {0, 1, 6},
    /* Y0, I1, I2', I3', w1, w2 of each symbol */
    {0, 1, 0, 0, 0, 2, 1, 0, 1, 1, 0, 2},
    /* the least sum into each of the sixteen states: at the start, and after each symbol */
    {0, 0, 0, 0, 0, 0, 0, 0, 0, 0, 0, 0, 0, 0, 0, 0,
     18058, 18058, 18058, 18058, 38538, 38538, 38538, 38538, 18058, 18058, 18058, 18058, 38538, 38538, 38538, 38538,
     57636, 57636, 56100, 56100, 61732, 61732, 41252, 41252, 57636, 57636, 56100, 56100, 61732, 61732, 41252, 41252},
};

static void say(const char *what, const struct card *c)
{
    uint32_t accepted = demfizagu_check_card(DEMFIZAGU_ROUND, WIDTH, c->coordinates, COORDINATES, c->states, STATES, c->symbols, PARTS,
                                             c->numbers, NUMBERS);
    printf("%s: %s\n", what, accepted == 1 ? "accepted" : "refused");
}

int main(void)
{
    say("the card", &sound);

    struct card other = sound;
    other.states[0] = 14;
    other.states[1] = 11;
    other.states[2] = 14;
    say("another sequence with the same sum", &other);

    struct card broken = sound;
    broken.states[2] = 4;
    say("a state that the symbol does not lead to", &broken);

    struct card farther = sound;
    farther.symbols[5] = 3;
    say("a point that is not the nearest", &farther);

    struct card high = sound;
    high.numbers[16] += 20481;
    say("a number above what its step costs", &high);

    struct card huge = sound;
    memset(huge.numbers, 0xff, sizeof huge.numbers);
    say("numbers of any size", &huge);
    return 0;
}
