/*
 * Ironsimmer: the telemetry coder and decoder of ISO 11754 (CCSDS 101.0-B-5), depth 8 included, proved.
 *
 * Link target/staticlib/libironsimmer.a, which ./archive writes. It defines the calls below and no other global name. No call allocates or
 * keeps state, and none calls anything but memcpy and memset of the C library; all may be used from several threads at once.
 *
 * Every call but ironsimmer_sequence returns one number: IRONSIMMER_NUMBER of it is the refusal's number, 0 if the call was accepted,
 * and IRONSIMMER_VALUE the refusal's value (of 9 the wrong bits of the form that has fewer, of 10 the lowest word that has no codeword;
 * else 0). If several refusals are due, the first in the order that each call names is answered. After a refusal every buffer and every
 * number that was lent to be written holds what it held.
 *
 * Any number and any length is accepted and judged. Of the caller this asks: each pointer is not null and points to as many octets or
 * numbers as are said to be there (also if that is none), and what is lent to be written overlaps nothing else that is lent.
 */
#ifndef IRONSIMMER_H
#define IRONSIMMER_H

#include <stddef.h>
#include <stdint.h>

#ifdef __cplusplus
extern "C" {
#endif

enum ironsimmer_refusal {
    IRONSIMMER_ACCEPTED = 0,
    IRONSIMMER_STRENGTH = 1,      /* E is neither 8 nor 16 */
    IRONSIMMER_DEPTH = 2,         /* I is none of 1, 2, 3, 4, 5, 8 */
    IRONSIMMER_FILL = 3,          /* Q is over 254 - 2E */
    IRONSIMMER_ALLOWANCE = 4,     /* s is over E */
    IRONSIMMER_INPUT_LENGTH = 5,  /* what is read has not the length required, or is over the limit */
    IRONSIMMER_OUTPUT_LENGTH = 6, /* what is written has not the length required */
    IRONSIMMER_RATE = 7,          /* the rate is none of 1 to 5, or the coder cannot be in the state at that rate */
    IRONSIMMER_TOLERANCE = 8,     /* the tolerance is over 3 */
    IRONSIMMER_MARKER = 9,        /* neither form of the marker is within the tolerance; the value is the smaller count of wrong bits */
    IRONSIMMER_WORD = 10,         /* a word has no codeword with zero fill within the allowance; the value is the lowest such word */
    IRONSIMMER_START = 11,        /* the search starts past the stream's end */
    IRONSIMMER_PROGRESS = 14      /* the frame is closed, or the portion would pass its end, or the close is not at it */
};

enum ironsimmer_search_kind {
    IRONSIMMER_FOUND = 1,
    IRONSIMMER_ABSENT = 2,
    IRONSIMMER_SPENT = 3
};

enum ironsimmer_form {
    IRONSIMMER_TRUE = 1,
    IRONSIMMER_COMPLEMENT = 2 /* all bits inverted */
};

#define IRONSIMMER_NUMBER(answer) ((unsigned)((answer) & 255))
#define IRONSIMMER_VALUE(answer) ((uint64_t)(answer) >> 8)

/*
 * Codes a frame of (255 - 2E - Q) I octets as a block of (255 - Q) I octets: the frame, then 2E check octets for each of its I
 * interleaved words. Strength E is 8 or 16; Q symbols of fill in each word, all zero, are not sent.
 * Refuses by 1, 2, 3, 5, 6, and then leaves the block as it was.
 */
uint64_t ironsimmer_encode(uint32_t e, uint32_t depth, uint32_t fill,
                           const uint8_t *frame, size_t frame_len, uint8_t *block, size_t block_len);

/*
 * Takes the next 0 to 300 octets of a frame that comes in portions, and writes them through: written, as long as the portion, gets its
 * octets. However a frame of (255 - 2E - Q) I octets is cut, all that is written, joined, and then the checks that
 * ironsimmer_encode_close gives are the block of ironsimmer_encode.
 *
 * The state between the calls is the caller's. progress holds the place, which is the number of octets taken so far, then whether the
 * frame is closed (0 is open, any other number closed). rows holds 32 check octets for each of eight words. All zero is the start of a
 * frame. An accepted portion adds its length to the place and leaves the frame open.
 *
 * One state belongs to one frame, and E, I and Q must be the same at each call of it. A call judges only the numbers that it is given:
 * with other numbers the checks are those of another code. Any state is judged, also one that no call has left.
 *
 * 14 is due if the frame is closed, or if place and portion together pass its length; an empty portion is accepted up to its end and
 * at it.
 * Refuses by 1, 2, 3, 5, 6, 14, and then leaves progress, rows and written as they were.
 */
uint64_t ironsimmer_encode_portion(uint32_t e, uint32_t depth, uint32_t fill, uint32_t progress[2], uint8_t rows[8][32],
                                   const uint8_t *portion, size_t portion_len, uint8_t *written, size_t written_len);

/*
 * Closes a frame that came in portions: checks, 2E x I octets, gets the check octets that follow the frame in its block, check j of
 * word w at octet j I + w. progress and rows are as the last portion left them, and E, I and Q are those of the portions. The frame is
 * closed afterwards (1), so that its state takes nothing more; place and rows stay. The next frame starts from zeros again.
 *
 * 14 is due if the frame is closed, or if the place is not its length.
 * Refuses by 1, 2, 3, 6, 14, and then leaves progress, rows and checks as they were.
 */
uint64_t ironsimmer_encode_close(uint32_t e, uint32_t depth, uint32_t fill, uint32_t progress[2], uint8_t rows[8][32],
                                 uint8_t *checks, size_t checks_len);

/*
 * Decodes a block: delivered exactly if every word lies within s symbols of a codeword whose fill is all zero. The frame is that of
 * those codewords; counts holds the number of differing symbols of each of eight words, 0 beyond the depth, then their total.
 * Refuses by 1, 2, 3, 4, 5, 6, 10, and then leaves frame and counts as they were.
 */
uint64_t ironsimmer_decode(uint32_t e, uint32_t depth, uint32_t fill, uint32_t s,
                           const uint8_t *block, size_t block_len, uint8_t *frame, size_t frame_len, uint32_t counts[9]);

/*
 * Salvages what it can of a block, word by word: a word that lies within s symbols of a codeword whose fill is all zero is repaired, and
 * any other stays as received. The frame is that of the words as they then are: what was wrong in a word that is not repaired is still
 * in it. Such a word is no refusal, and 10 is never answered.
 *
 * words holds eight marks, 1 for a word that is repaired and 0 for one that is not; then eight counts, the number of symbols in which a
 * repaired word differed from its codeword, checks included, and 0 for a word that is not repaired; then the number of entries in the
 * list. Marks and counts are 0 beyond the depth. A word that was such a codeword as received is repaired, with count 0. All I words are
 * repaired exactly if ironsimmer_decode delivers the block, and then with the same frame and counts. Mark, count and symbols of a word
 * depend on its own received symbols, E, Q and s alone, and not on the other words.
 *
 * list has four octets for each octet of the block, 4 (255 - Q) I. Each octet of the block that a repair changes has an entry there, in
 * the order of the block, from the list's first octet on: the octet's position in the block, from 0, in two octets, the highest first;
 * then the octet as received; then the octet as repaired, which is another. Changed checks are among them. The list's octets after the
 * entries stay as they were, and so does the block, which is only read.
 *
 * 6 is due if the frame has not (255 - 2E - Q) I octets, and then if the list has not the number above.
 * Refuses by 1, 2, 3, 4, 5, 6, and then leaves frame, list and words as they were.
 */
uint64_t ironsimmer_salvage(uint32_t e, uint32_t depth, uint32_t fill, uint32_t s, const uint8_t *block, size_t block_len,
                            uint8_t *frame, size_t frame_len, uint8_t *list, size_t list_len, uint32_t words[17]);

/*
 * Adds the pseudo-random sequence to a block of at most 2,040 octets, in place, from the sequence's beginning. The same call undoes it.
 * Refuses by 5, and then leaves the block as it was.
 */
uint64_t ironsimmer_randomise(uint8_t *block, size_t block_len);

/*
 * The next octet of the sequence. The register holds the next eight bits, 255 at the beginning, and is left eight bits on.
 * Refuses nothing, and returns the octet.
 */
uint8_t ironsimmer_sequence(uint8_t *reg);

/*
 * Tests four octets against the marker 1A CF FC 1D and against its complement E5 30 03 E2: accepted, if one of the two has at most as
 * many wrong bits as the tolerance (0 to 3) says. Never do both fit. found holds the form that does (IRONSIMMER_TRUE or
 * IRONSIMMER_COMPLEMENT), then its wrong bits.
 * Refuses by 8, 5, 9, and then leaves found as it was.
 */
uint64_t ironsimmer_marker(uint32_t tolerance, const uint8_t *octets, size_t octets_len, uint32_t found[2]);

/*
 * Looks for the marker, in either form, at every bit of a stream of at most 65,536 octets, from bit `start` on, at no more than `budget`
 * places. found holds the kind (IRONSIMMER_FOUND, IRONSIMMER_ABSENT, IRONSIMMER_SPENT), the place (the first that fits either way; if
 * spent, the next to look at; if absent, 0), the wrong bits there of the form that fits (0 unless found), how many places were looked
 * at, and that form (IRONSIMMER_TRUE or IRONSIMMER_COMPLEMENT; 0 unless found).
 * Refuses by 8, 5, 11, and then leaves found as it was.
 */
uint64_t ironsimmer_search(uint32_t tolerance, const uint8_t *stream, size_t stream_len,
                           uint64_t start, uint64_t budget, uint64_t found[5]);

/*
 * Codes the next octets of a stream, at most 2,044 in one call, at rates 1 to 5 (1/2, 2/3, 3/4, 5/6, 7/8). A whole stream is coded by
 * any number of calls at one rate, the first from a state of zeros, and then ironsimmer_convolve_close. However the stream is cut, and
 * however long it is, all that they write, joined, is its symbols, packed top bit first, the last octet filled with zeros.
 *
 * The state between the calls is the caller's, four octets: the register, which is the last six bits of the stream so far, the newest
 * lowest; the place in the rate's puncture period, whose bits are p = 1, 2, 3, 5, 7; how many symbols are held, 0 to 7, because they do
 * not yet fill an octet; and the held symbols, top bit first. The bits below these are ignored, and an accepted call leaves them zero.
 * All zero is the start of a stream. A state may be used at another rate if its place is below that rate's p.
 *
 * Of n octets from place c on there are 8n + ceil((c + 8n) / p) - ceil(c / p) symbols; count is their number, without those held
 * before. The held symbols come first, then these: symbols gets the octets that they fill, so many as all of them divided by 8, rounded
 * down, and the rest, fewer than eight, is held.
 *
 * 7 is due if the rate is none of 1 to 5, the register over 63, the place p or more, or the number of held symbols over 7. Any state is
 * judged, also one that no call has left.
 * Refuses by 7, 5, 6, and then leaves state, symbols and count as they were.
 */
uint64_t ironsimmer_convolve(uint32_t rate, uint8_t state[4], const uint8_t *data, size_t data_len,
                             uint8_t *symbols, size_t symbols_len, uint32_t *count);

/*
 * Ends a stream that ironsimmer_convolve coded: symbols, one octet, gets the held symbols, top bit first, and zeros below them; if none
 * are held, symbols has no octet and nothing is written. count is the number of held symbols, without the zeros. The state is as the
 * last call left it, and is only read: nothing in it says that the stream has ended. The next stream starts from zeros again.
 *
 * 7 is due as in ironsimmer_convolve.
 * Refuses by 7, 6, and then leaves symbols and count as they were.
 */
uint64_t ironsimmer_convolve_close(uint32_t rate, const uint8_t state[4], uint8_t *symbols, size_t symbols_len, uint32_t *count);

/*
 * Decodes the symbols of n octets of data at rate 1/2, n from 0 to 256: 2n octets of symbols, top bit first, as ironsimmer_convolve
 * writes them at rate 1 if none are held. Of all inputs of n octets, data gets the one whose symbols differ from these in the fewest
 * places; of several such inputs, the one that has 0 at the first bit where they differ. The inputs are coded from `reg`, the coder's
 * register when it wrote the first of these symbols: the last six bits of the stream before them, the newest lowest, 0 at its start. The
 * register at the end is free. found holds the number of differing places, then the register that the data lead to: their last six
 * bits, or `reg` if there are no data.
 *
 * That register may be handed on to the next call. Symbols that arrived as they were sent are so decoded in any portions. But decoding
 * in portions is not decoding in one piece: a portion is judged by its own symbols alone, so that with wrong symbols near its end its
 * last bits may be others than in one piece, and the next portion then starts from another register than the coder did.
 *
 * 7 is due if `reg` is over 63, 5 if the octets of symbols are an odd number or over 512, 6 if data has not half as many.
 * Refuses by 7, 5, 6, and then leaves data and found as they were.
 */
uint64_t ironsimmer_likeliest(uint32_t reg, const uint8_t *symbols, size_t symbols_len,
                              uint8_t *data, size_t data_len, uint32_t found[2]);

/*
 * Codes a frame as encode does, randomises the block unless `randomised` is 0, and puts the marker in front: (255 - Q) I + 4 octets.
 * Nothing in the marked block says whether it was randomised. The receiver must be told: with the other flag it may deliver another
 * frame and count nothing wrong (see ironsimmer_receive).
 * Refuses by 1, 2, 3, 5, 6, and then leaves the marked block as it was.
 */
uint64_t ironsimmer_transmit(uint32_t e, uint32_t depth, uint32_t fill, uint32_t randomised,
                             const uint8_t *frame, size_t frame_len, uint8_t *marked, size_t marked_len);

/*
 * Tests the marker of a marked block, inverts the block after a complemented one, randomises it again unless `randomised` is 0, and
 * decodes it. frame is as in decode; counts holds the nine numbers of decode, then 1 if the block was inverted, else 0. The marked block
 * is not changed.
 *
 * WARNING: `randomised` must be the flag that was sent; this call cannot see which it was. With the other flag a block of these sizes is
 * delivered as ANOTHER FRAME, with nothing counted beyond what was wrong before, because the sequence is there itself made of codewords:
 *     E 16, Q 0, I 1, 2, 4 or 8
 *     E 8, Q 0, I 1, 2, 4, 5 or 8
 * At every other size a block that arrived as it was sent is then refused by 10.
 *
 * WARNING: the marker alone says whether the block is inverted. At Q 0 (no fill) the word of 255 octets FF is itself a codeword, so that
 * a complemented marker before a block that is not inverted is delivered as the INVERTED FRAME, with nothing counted beyond what was
 * wrong before; so is a true marker before a block that is inverted. The code cannot see it. With fill such a block, if it arrived as it
 * was sent, is refused by 10.
 *
 * Refuses by 1, 2, 3, 4, 8, 5, 6, 9, 10, and then leaves frame and counts as they were.
 */
uint64_t ironsimmer_receive(uint32_t e, uint32_t depth, uint32_t fill, uint32_t s, uint32_t tolerance, uint32_t randomised,
                            const uint8_t *marked, size_t marked_len, uint8_t *frame, size_t frame_len, uint32_t counts[10]);

#ifdef __cplusplus
}
#endif

#endif
