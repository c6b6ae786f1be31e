/*
 * A list of words in one send. It prints the coordinates of each word that was sent and why the call stopped, drops the word
 * that was refused, and goes on behind it; with room for three words at a time, so that the output is sometimes too short.
 *
 *     list
 */
#include <inttypes.h>
#include <stdio.h>

#include "demfizagu.h"

enum { SENDER = 8, WORDS = 8, ROOM = 12, TOLD = 3 };

int main(void)
{
    /* at width 0 a word is 0 to 7: the fifth is none */
    const uint32_t words[WORDS] = {2, 0, 0, 4, 8, 1, 0, 5};
    uint64_t state[SENDER], told[TOLD];
    int32_t points[ROOM];
    if (demfizagu_sender_words() > SENDER || demfizagu_sender_open(state, SENDER, 0) != DEMFIZAGU_DONE) {
        fprintf(stderr, "list: no sender\n");
        return 1;
    }
    for (size_t at = 0; at < WORDS;) {
        uint32_t number = demfizagu_send_list(state, SENDER, words + at, WORDS - at, points, ROOM, told, TOLD);
        for (uint64_t i = 0; i < told[0]; i++)
            printf("word %" PRIu32 ": (%" PRId32 ",%" PRId32 ")(%" PRId32 ",%" PRId32 ")\n", words[at + i], points[4 * i],
                   points[4 * i + 1], points[4 * i + 2], points[4 * i + 3]);
        printf("%" PRIu64 " sent, %" PRIu64 " coordinates, number %" PRIu32 "\n", told[0], told[1], number);
        at += told[0];
        if (number == DEMFIZAGU_WORD)
            printf("word %" PRIu32 " dropped\n", words[at++]);
        else if (number != DEMFIZAGU_DONE && number != DEMFIZAGU_ROOM)
            return 1;
    }
    return 0;
}
