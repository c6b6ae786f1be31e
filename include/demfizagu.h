/*
 * demfizagu.h: both ends of a trellis-coded line (Wei's 16-state 4D code), as functions over numbers and slices.
 *
 * WHAT IT DOES
 *
 * A sender turns data words into symbols. A symbol is a pair of points, (x1, y1) and (x2, y2), with odd whole coordinates
 * from -39 to 39. A receiver turns received symbols into words. It says a word only when the word is final: when the best
 * readings of all it has heard, whatever state they end in, begin with the same symbols. What it has said is never taken
 * back, and together with what a finish adds it is the nearest allowed sequence for all that was heard. Symbols taken
 * whose words are not said yet are pending. The window is how many may be pending.
 *
 * A receiver may run for years: nothing in it counts symbols or grows with them. Of each state it keeps in 32 bits how much more
 * its best reading costs than the best of all, in squared line units (a point's coordinate is 128 of them): at most 1,048,576,
 * and with the next symbol, when readings are compared, at most 1,572,864.
 *
 * The width u, 0 to 8, fixes the word: 3 + 2u bits, all higher bits zero. The map says which points the symbols have: the
 * round map, or the square map, which has the even widths alone. Both ends must use the same map and the same width.
 *
 * The receiver hears whole numbers from -8192 to 8192, where a point's coordinate c stands at 128 * c. A front end that
 * has floats in the unit of the points (1.0 is coordinate 1) gets such numbers from demfizagu_sample or demfizagu_samples.
 * A point that it never got is marked as missing (demfizagu_hear_marked): it counts for nothing, and the word is read off
 * what was heard before and after it.
 *
 * Where every coordinate is heard at most 127 from 128 times the one that was sent, the words said are the words sent (with start 0, or
 * with DEMFIZAGU_FREE but for bits 1 and 2 of the first). At most 61 off a window of 64 is never answered with DEMFIZAGU_FULL, and at most
 * 56 off a window of 32 is not (at widths 1, 4 and 5 of the round map at most 3), so a word is final after at most window more symbols.
 *
 * A LINE IN SHORT
 *
 *     uint64_t *tx = malloc(8 * demfizagu_sender_words()), *rx = malloc(8 * demfizagu_receiver_words());
 *     demfizagu_sender_open(tx, demfizagu_sender_words(), u);
 *     demfizagu_receiver_open_plain(rx, demfizagu_receiver_words(), u);
 *     for each word:
 *         int32_t point[4], heard[4];   uint32_t said[65];   uint64_t told[3];
 *         demfizagu_send(tx, demfizagu_sender_words(), word, point, 4);
 *         heard[i] = 128 * point[i] + noise, for i 0 to 3;
 *         demfizagu_hear(rx, demfizagu_receiver_words(), heard, 4, said, 65, told, 3);
 *         said[0] to said[told[1] - 1] are final words
 *     demfizagu_finish(rx, demfizagu_receiver_words(), said, 65, told, 3);
 *         said[0] to said[told[1] - 1] are the last words
 *
 * examples/line.c is such a line, with every answer looked at.
 *
 * SLICES
 *
 * A slice is a pointer and then a length, which counts elements, not bytes. Each function's contract is proved by machine;
 * these duties are the caller's, and no proof can see whether they are kept:
 *
 *   - a length is true: so many elements are there, and may be written where the pointer is not const;
 *   - a pointer is aligned for its type and not null, also where the length is 0;
 *   - slices of one call do not overlap;
 *   - the words of a state are used by one thread at a time. Different states are independent: the library has no other
 *     memory;
 *   - the program is for the kind of machine that the archive was made for: it holds no other code;
 *   - the stack has room: demfizagu_hear, demfizagu_hear_marked and demfizagu_check_card take less than 3,000 bytes, any other
 *     call of an end less than 7,000, a replay's call less than 10,000, and the first call of a program some 3,000 more where
 *     the loader resolves memcpy at its first use. tests/stack measures this on the machine that it runs on;
 *   - for the calls that convert floats, the thread's floating-point environment is the default one. They are exact only
 *     there: under another rounding mode they give other numbers, and where exceptions trap a call may raise the signal.
 *     Denormals that are flushed to zero make no difference.
 *
 * The archive has no unwind tables, so a backtrace from inside a call ends there.
 *
 * STATES
 *
 * An end lives in 64-bit words that the caller lends: at least demfizagu_sender_words() or demfizagu_receiver_words().
 * More do no harm and stay as they are. An opening makes a state from any words; nothing is allocated, and nothing need
 * be freed. A state may be copied to another place, and each copy then goes its own way. Its words are for the library
 * alone. A state that is too short, that says it is the other end's or of another layout (an older library's), or whose
 * numbers are out of range is read as closed. Any other words are answered as an open end: they are safe to pass, but what
 * is then said means something only if an opening and calls made them. So between an opening and a finish nothing but
 * these calls should write to a state.
 *
 * TOLD
 *
 * Where a call of an end has a slice `told`, it has at least three places, and the call always writes these three: told[0]
 * how many symbols were taken (0 for a finish) or words sent, told[1] how many words or coordinates were written, told[2]
 * the place at fault if the number is 5, else 0. If `told` is shorter the call answers 8 and does nothing.
 *
 * A call that records has four places: told[3] is how many bytes it recorded. There three places are too few, and an 8.
 *
 * A call of a replay writes told[0] alone, where it exists: how many bytes it said at the front of `line`, or 0.
 *
 * NUMBERS
 *
 * A call that opens, sends, hears, finishes or converts gives one of the numbers below. Where several apply, the order of
 * tests is said at the function. A refused call leaves the state and all lent memory as they were, but for what is said
 * here.
 */
#ifndef DEMFIZAGU_H
#define DEMFIZAGU_H

#include <stddef.h>
#include <stdint.h>

#ifdef __cplusplus
extern "C" {
#endif

#define DEMFIZAGU_VERSION 1u

/* Done: everything asked for was done. */
#define DEMFIZAGU_DONE 0u
/* An opening was given a width above 8, an odd width of the square map, or a number that is no map's; the state is now a
 * closed end. */
#define DEMFIZAGU_WIDTH 1u
/* An opening was given a window that is not 1 to 64; the state is now a closed receiver. */
#define DEMFIZAGU_WINDOW 2u
/* An opening was given a start above 16; the state is now a closed receiver. */
#define DEMFIZAGU_START 3u
/* The word to send has a bit at or above bit 3 + 2u; nothing was sent. */
#define DEMFIZAGU_WORD 4u
/* A coordinate is outside -8192 to 8192, or a float is not a number, infinite or rounds to outside that range; the symbol
 * or sample it belongs to was not taken, and the place says which coordinate was first at fault. Hear the symbol with that point
 * marked as missing (demfizagu_hear_marked): a symbol that is left out breaks the line there. */
#define DEMFIZAGU_COORDINATE 5u
/* With this symbol more than the window's number would be pending; it was not taken. Another symbol will seldom help: finish,
 * open again, and go on with the symbol that was refused. */
#define DEMFIZAGU_FULL 6u
/* 7 is given no more, and nothing else has its number: a receiver takes symbols for as long as the line lasts. */
/* A slice is too short: an output for what had to be written there, a `told`, or the state of an opening; the word, symbol,
 * finish or call was not done and may be tried again with more room. */
#define DEMFIZAGU_ROOM 8u
/* The end is closed: it was never opened, its opening was refused, or it was finished; open it first. */
#define DEMFIZAGU_CLOSED 9u
/* The length of a piece is not a multiple of 4, or of a list of floats not a multiple of 2, or marks are not one for each
 * symbol or sample or are no marks; nothing was taken. */
#define DEMFIZAGU_LENGTH 10u

/* The maps, for the openings that name one. The others are the round map's. */
#define DEMFIZAGU_ROUND 0u
#define DEMFIZAGU_SQUARE 1u

/* The start that names no state: the receiver joins a line without knowing the sender's state. */
#define DEMFIZAGU_FREE 16u

/* The version of these functions: DEMFIZAGU_VERSION of the header that goes with the library. */
uint32_t demfizagu_version(void);

/* How many 64-bit words the state of a sender needs, and of a receiver. Always the same. */
size_t demfizagu_sender_words(void);
size_t demfizagu_receiver_words(void);

/*
 * Opens a sender of width u in state 0 with turn 0.
 * Order: 8 if the state is too short (nothing is written), then 1.
 */
uint32_t demfizagu_sender_open(uint64_t *state, size_t state_len, uint32_t u);

/* The same on the map that is named: DEMFIZAGU_ROUND or DEMFIZAGU_SQUARE. */
uint32_t demfizagu_sender_open_map(uint64_t *state, size_t state_len, uint32_t map, uint32_t u);

/*
 * Sends one word: writes the symbol's x1, y1, x2, y2 to out[0] to out[3]. Other places of out stay.
 * Order: 9, 4, 8 (out has less than four places). A refused word changes nothing.
 *
 * The word's bit 0 is I1, bits 1 and 2 are I2 and I3, the next u bits choose the first point and the next u bits the
 * second.
 */
uint32_t demfizagu_send(uint64_t *state, size_t state_len, uint32_t word, int32_t *out, size_t out_len);

/*
 * Sends a list of words, one after the other as demfizagu_send would: the four coordinates of each go to out straight after
 * those of the words before. Other places of out stay.
 *
 * Order: 8 if told is too short (nothing is written), then 9, then word by word 4, 8 (less than four places are left),
 * stopping at the first word that is refused. Words before it stay sent: told[0] counts them, told[1] the coordinates
 * written, four for each, and told[2] is 0. The list is to be gone on with at words + told[0]. An empty list to an open
 * sender is done, with 0 sent.
 */
uint32_t demfizagu_send_list(uint64_t *state, size_t state_len, const uint32_t *words, size_t words_len, int32_t *out,
                             size_t out_len, uint64_t *told, size_t told_len);

/*
 * Opens a receiver of width u that lets at most `window` symbols be pending. `start` 0 to 15 is the sender's state before
 * the first symbol (0 for a sender just opened); DEMFIZAGU_FREE leaves it open.
 * Order: 8 if the state is too short (nothing is written), then 1, 2, 3.
 *
 * Bits 1 and 2 of a word say how far the points turned since the symbol before. With a named start the first word's are
 * measured against 0, where a sender just opened begins. With DEMFIZAGU_FREE the turn before the first word is not known:
 * its bits 1 and 2 are zero, and no later symbol mends them.
 */
uint32_t demfizagu_receiver_open(uint64_t *state, size_t state_len, uint32_t u, uint32_t window, uint32_t start);

/*
 * The same with window 32 and a free start. Who reads a whole transmission and must not hear a 6 among its first 64 symbols
 * names a window of 64: with a window of w none of the first w good symbols is answered with a 6.
 */
uint32_t demfizagu_receiver_open_plain(uint64_t *state, size_t state_len, uint32_t u);

/* As demfizagu_receiver_open, on the map that is named. */
uint32_t demfizagu_receiver_open_map(uint64_t *state, size_t state_len, uint32_t map, uint32_t u, uint32_t window,
                                     uint32_t start);

/*
 * Hears a piece: symbols one after the other, four coordinates each (x1, y1, x2, y2). The words that become final with a
 * symbol are written to out straight after those that this call wrote before. Other places of out stay.
 *
 * Order: 8 if told is too short (nothing is written), then 9, 10, then symbol by symbol 5, 6, 8, stopping at the first
 * refusal. Symbols before it stay taken and their words written: told[0] and told[1] count them, and the piece is to be
 * gone on with at piece + 4 * told[0]. For a 5, told[2] is 0 to 3, the coordinate of that symbol. For an 8, out has no
 * room for all words of that symbol, and none of them was written.
 *
 * One symbol makes at most 64 words final, and a whole piece at most as many as were pending and it has symbols: with that
 * much room there is no 8. An empty piece on an open receiver is done, with 0 taken and 0 written.
 */
uint32_t demfizagu_hear(uint64_t *state, size_t state_len, const int32_t *piece, size_t piece_len, uint32_t *out,
                        size_t out_len, uint64_t *told, size_t told_len);

/*
 * Hears a piece of which some points are missing. marks has one byte for each symbol: 0 both points heard, 1 the first
 * missing, 2 the second, 3 both. The piece has four coordinates for each symbol all the same; those of a missing point are
 * not looked at and are never a 5. A missing point adds 0 to every distance.
 *
 * If a symbol without a mark follows each one with mark 1 or 2, and two follow each one with mark 3, and points are heard within 127 as
 * above, the words lose the bits of the missing points' numbers, which are 0, with mark 3 also bit 2 of that word and of the next, and
 * nothing else (with DEMFIZAGU_FREE the first four symbols must have no mark). Name a window of 64 on such a line; a 6 can still come.
 *
 * All else is as for demfizagu_hear, which is this with no mark. A 10 is also given where marks_len is not piece_len / 4 or
 * a byte is above 3. After a refusal the marks are to be gone on with at marks + told[0].
 */
uint32_t demfizagu_hear_marked(uint64_t *state, size_t state_len, const int32_t *piece, size_t piece_len,
                               const uint8_t *marks, size_t marks_len, uint32_t *out, size_t out_len, uint64_t *told,
                               size_t told_len);

/*
 * Finishes: writes the words of all pending symbols as the nearest allowed sequence has them, and closes the receiver.
 * Order: 8 if told is too short (nothing is written), then 9, 8 (out has less places than symbols are pending, at most
 * 64). A refused finish may be tried again.
 */
uint32_t demfizagu_finish(uint64_t *state, size_t state_len, uint32_t *out, size_t out_len, uint64_t *told,
                          size_t told_len);

/*
 * RECORDING
 *
 * A run may be recorded as a capture: the record of its opening, then of each symbol taken, each followed by the records of the
 * words that it released, then of the finish and its words. What these functions write, one after the other and whatever
 * is refused between, is such a capture, and its replay agrees with it (proved: `library-agrees`, docs/PROMISES.md, "The
 * recorder"), if
 *
 *   - it begins with the record of the opening, made by a record_open with the same map, width, window and start;
 *   - every call of hearing and finishing after that opening is one that records: a plain one between leaves a hole;
 *   - it ends with the finish, or before: another opening begins another capture, in a file of its own. Recorded on in the same
 *     file it is malformed there.
 *
 * In a piece of many symbols, which symbol released which word can be read off the recorded bytes: the words stand behind it.
 *
 * demfizagu_record_open puts the record of an opening into bytes[0] to bytes[3]; it opens nothing. Order: 8 (bytes has less than
 * four places), 1, 2, 3; a refusal writes no byte. An opening with the plain window is recorded with window 32, start 16.
 */
uint32_t demfizagu_record_open(uint32_t u, uint32_t window, uint32_t start, uint8_t *bytes, size_t bytes_len);

/* The same on the map that is named: a capture of the square map opens with kind 6. */
uint32_t demfizagu_record_open_map(uint32_t map, uint32_t u, uint32_t window, uint32_t start, uint8_t *bytes, size_t bytes_len);

/*
 * As demfizagu_hear, and records the symbols taken and their words in bytes, straight after one another: 9 bytes for a symbol and
 * 5 for each word. told has four places here; told[3] is how many bytes were written, 0 with a 9 or a 10. Other places of bytes
 * stay. An 8 is an out without room for the words of that symbol, or bytes without room for its records; it was not taken.
 * 329 bytes are always enough for one symbol.
 */
uint32_t demfizagu_hear_recorded(uint64_t *state, size_t state_len, const int32_t *piece, size_t piece_len, uint32_t *out,
                                 size_t out_len, uint8_t *bytes, size_t bytes_len, uint64_t *told, size_t told_len);

/*
 * As demfizagu_hear_marked, and records as demfizagu_hear_recorded does: 10 bytes for a symbol with a mark other than 0, with
 * zeros in the places of a missing point, whatever stood there. 330 bytes are always enough for one symbol.
 */
uint32_t demfizagu_hear_marked_recorded(uint64_t *state, size_t state_len, const int32_t *piece, size_t piece_len,
                                        const uint8_t *marks, size_t marks_len, uint32_t *out, size_t out_len, uint8_t *bytes,
                                        size_t bytes_len, uint64_t *told, size_t told_len);

/*
 * As demfizagu_finish, and records the finish and its words: 1 byte and 5 for each pending word, without which it is an 8. told has
 * four places; told[3] is how many bytes were written, 0 where the finish was refused. 321 bytes are always enough.
 */
uint32_t demfizagu_finish_recorded(uint64_t *state, size_t state_len, uint32_t *out, size_t out_len, uint8_t *bytes,
                                   size_t bytes_len, uint64_t *told, size_t told_len);

/* How many symbols are pending; 0 for a closed receiver and for a sender. */
uint32_t demfizagu_pending(const uint64_t *state, size_t state_len);

/* 1 if the state is an open sender or an open receiver, else 0. */
uint32_t demfizagu_is_open(const uint64_t *state, size_t state_len);

/*
 * Converts one sample. Each coordinate v becomes the whole number nearest to 128 * v, halves to the even neighbour, exactly.
 * Done: out[0] and out[1] are the two numbers, out[2] is 0. For a 5, out[0] and out[1] are 0 and out[2] is 0 or 1, the
 * coordinate first at fault. Other places of out stay. 8 if out has less than three places (nothing is written).
 */
uint32_t demfizagu_sample(float x, float y, int32_t *out, size_t out_len);

/*
 * Converts a list of coordinates, two to a sample (x, y, x, y, ..), up to the first sample that is refused. Coordinate n of
 * the list goes to out[n]. told[0] and told[1] are how many coordinates were written, always whole samples; told[2] for a 5
 * is the place in the list of the coordinate first at fault. Other places of out stay.
 * Order: 8 if told is too short (nothing is written), then 10, then sample by sample 5, 8 (no room for its two numbers).
 */
uint32_t demfizagu_samples(const float *floats, size_t floats_len, int32_t *out, size_t out_len, uint64_t *told,
                           size_t told_len);

/*
 * The same of samples of which some are missing. missing has one byte for each sample, 0 heard, 1 missing: the floats of a
 * missing one are there and are not looked at, and it goes to out as 0, 0. A 10 is also given where missing_len is not
 * floats_len / 2 or a byte is above 1. The mark of a symbol, for demfizagu_hear_marked, is the byte of its first sample and
 * twice that of its second.
 */
uint32_t demfizagu_samples_marked(const float *floats, size_t floats_len, const uint8_t *missing, size_t missing_len,
                                  int32_t *out, size_t out_len, uint64_t *told, size_t told_len);

/*
 * REPLAYS OF CAPTURES
 *
 * A capture is a recorded run of a receiver: records of one byte of kind and a body. Kind 1, open: width, window, start (16
 * is free), a byte each. Kind 2, symbol taken: four signed 16-bit coordinates, low byte first. Kind 3, word released: 4 bytes,
 * low byte first. Kind 4, finish: none. Kind 5, symbol taken of which a point is missing: its mark, 1 to 3, a byte, then the
 * coordinates with zeros for the missing. Kind 6, open on the square map: as kind 1. Words stand right after the symbol or
 * finish that gave them. A capture has no checksum: a flipped bit may leave one that still agrees, so a file that travels
 * wants one beside it. A replay runs the receiver and compares; its verdict is one line of text, with no newline:
 *
 *     agree N                          all is well, with N words
 *     record N word G expected H       the word recorded, and the one that belongs there; `expected none` for one too many
 *     record N missing word H          a word that belongs there
 *     record N refused R               the receiver refused the open or the symbol, with number R; a finish it never refuses
 *     offset P malformed               the record whose kind byte is byte P is none, is cut, or may not stand there
 *
 * Words have eight hex digits; records and bytes count from 0. Only the first fault is said.
 *
 * The bytes come in lumps of any length, empty ones too, which may end inside a record:
 *
 *     uint64_t *replay = malloc(8 * demfizagu_replay_words()), told[1];   uint8_t line[64];
 *     demfizagu_replay_start(replay, demfizagu_replay_words());
 *     for each lump:
 *         demfizagu_replay_feed(replay, demfizagu_replay_words(), lump, lump_len, line, 64, told, 1);
 *         if told[0] is not 0: line[0] to line[told[0] - 1] is the fault
 *     demfizagu_replay_end(replay, demfizagu_replay_words(), line, 64, told, 1);
 *         if told[0] is not 0: line[0] to line[told[0] - 1] is the verdict
 *
 * However the bytes are cut, exactly one call says a line, and it is the verdict on all the bytes. A fault is said by the
 * lump that settles it, and from then on lumps are swallowed. examples/collect.c is such a collector. What is proved of these
 * calls stands in docs/PROMISES.md, "Captures that arrive in pieces" (`lumps-said`).
 *
 * A replay's state is one more kind of state: all that is said of states above holds, with words of its own. Where no
 * replay is in it (too short, another kind's, numbers out of range, or ended) it is answered with 9.
 */

/* How many 64-bit words the state of a replay needs. Always the same. */
size_t demfizagu_replay_words(void);

/* Makes a replay before any byte. 8 if the state is too short (nothing is written). */
uint32_t demfizagu_replay_start(uint64_t *state, size_t state_len);

/*
 * Takes a lump of bytes. told[0] is 0, or the length of the line of a fault that this lump brought; other places of `line`
 * and `told` stay.
 * Order: 8 if told has no place or line less than 64, then 9. A refused lump was not taken: told[0] is 0 where it exists,
 * and all else stays. Else the number is 0, fault or not.
 */
uint32_t demfizagu_replay_feed(uint64_t *state, size_t state_len, const uint8_t *lump, size_t lump_len, uint8_t *line,
                               size_t line_len, uint64_t *told, size_t told_len);

/*
 * The end of input. told[0] is the length of the verdict's line, or 0 if a lump has said a fault already. The replay has
 * then ended: another call answers 9 until a start.
 * Order: as for a lump. A refused end may be tried again.
 */
uint32_t demfizagu_replay_end(uint64_t *state, size_t state_len, uint8_t *line, size_t line_len, uint64_t *told,
                              size_t told_len);

/*
 * CHECKING ANOTHER MAKER'S DECODER
 *
 * A signal card decodes a list of n symbols, 1 to 64, with a free start, and hands over what it chose. demfizagu_check_card
 * answers 1 if it accepts that, else 0. It decodes nothing, keeps nothing and writes nothing.
 *
 *   coordinates   4n: what the card was given, for each symbol x1, y1, x2, y2, -8192 to 8192
 *   states        n + 1: the state before the first symbol and after each, 0 to 15
 *   symbols       6n: for each symbol Y0, I1, I2', I3', each 0 or 1, and w1, w2, below 2^u
 *   numbers       16(n + 1): sixteen for the start and sixteen after each symbol, which the card says are the least sums
 *                 into the states 0 to 15, of distances as the receiver counts them: at most 262,144 for a point
 *
 * Accepted is only a sequence that is allowed and of which none has a smaller sum, whatever the card sent. If the numbers are
 * the true least sums and the sequence is allowed and nearest, it is accepted, however its ties fell. Never accepted are
 * other lengths, a width that an opening refuses for that map (1), a number that is no map's, and a coordinate out of range
 * (5). Numbers of any size do no harm. For a missing point a card has no place.
 *
 * A state is 8 W1 + 4 W2 + 2 W3 + W4. A symbol's Y0 is W4 of its state, and the state after it is W3, W4, W2 + I2',
 * W1 + W3 + I1, sums modulo 2. Its points have the labels q = 2 I3' + I2' and q + Y0 + 2 I1 modulo 4, and the numbers w1 and
 * w2. examples/card.c has a card.
 */
uint32_t demfizagu_check_card(uint32_t map, uint32_t u, const int32_t *coordinates, size_t coordinates_len,
                              const uint32_t *states, size_t states_len, const uint32_t *symbols, size_t symbols_len,
                              const uint64_t *numbers, size_t numbers_len);

#ifdef __cplusplus
}
#endif

#endif
