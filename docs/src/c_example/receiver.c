/*
 * A small receiver: reads marked, randomised blocks (E 16, I 5, no fill) from a file, writes the frames of those that are delivered to
 * another, and prints one line for each block, as the report program does.
 *
 *     receiver BLOCKS FRAMES
 */
#include <stdio.h>

#include "ironsimmer.h"

/* RANDOMISED must be the flag that was sent: ironsimmer_receive cannot see it, and at some sizes (not these) the other goes unnoticed. */
enum { STRENGTH = 16, WORDS = 5, FILL = 0, ALLOWANCE = 16, TOLERANCE = 3, RANDOMISED = 1 };
enum { FRAME = (255 - 2 * STRENGTH - FILL) * WORDS, MARKED = (255 - FILL) * WORDS + 4, TOTAL = 8, INVERTED = 9 };

/* A refusal by 9 carries the wrong bits of the nearer form, but the report's line does not have them; one by 10 names its word. */
static void print_refusal(unsigned long block, uint64_t answer)
{
    unsigned number = IRONSIMMER_NUMBER(answer);

    if (number == IRONSIMMER_WORD)
        printf("block %lu: refused %u word %lu\n", block, number, (unsigned long)IRONSIMMER_VALUE(answer));
    else
        printf("block %lu: refused %u\n", block, number);
}

/*
 * Returns 0 if a delivered frame could not be written. The marker alone says whether the block is inverted: with no fill, as here, a
 * complemented marker before a block that is not inverted goes unnoticed, and the inverted frame is written.
 */
static int receive_block(unsigned long block, const uint8_t *marked, FILE *frames)
{
    uint8_t frame[FRAME];
    uint32_t counts[10];
    uint64_t answer = ironsimmer_receive(STRENGTH, WORDS, FILL, ALLOWANCE, TOLERANCE, RANDOMISED, marked, MARKED, frame, FRAME, counts);

    if (answer != IRONSIMMER_ACCEPTED) {
        print_refusal(block, answer);
        return 1;
    }
    printf("block %lu: corrected %lu%s\n", block, (unsigned long)counts[TOTAL], counts[INVERTED] ? " inverted" : "");
    return fwrite(frame, 1, FRAME, frames) == FRAME;
}

/* The last piece may be shorter than a block: it is named, and no block. */
static int receive_all(FILE *blocks, FILE *frames)
{
    uint8_t marked[MARKED];
    unsigned long block = 0;
    size_t octets;

    while ((octets = fread(marked, 1, MARKED, blocks)) == MARKED)
        if (!receive_block(block++, marked, frames))
            return 0;
    if (octets > 0)
        printf("short %lu\n", (unsigned long)octets);
    printf("end %lu\n", block);
    return !ferror(blocks);
}

int main(int argc, char **argv)
{
    FILE *blocks = argc == 3 ? fopen(argv[1], "rb") : NULL;
    FILE *frames = blocks ? fopen(argv[2], "wb") : NULL;

    if (!frames) {
        fprintf(stderr, "receiver BLOCKS FRAMES: both must be files that can be opened\n");
        return 2;
    }
    if (!receive_all(blocks, frames) || fclose(frames) != 0) {
        fprintf(stderr, "receiver: a file could not be read or written to its end\n");
        return 1;
    }
    return 0;
}
