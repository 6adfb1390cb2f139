#include <stdio.h>

#include "crumbthistle.h"

/* The causes of a bad byte, in words. Bits are numbered from the lowest, which is bit 0. */
static const char *const cause_words[TAPE_CAUSES] = {"the marker", "bit 0", "bit 1", "bit 2", "bit 3", "bit 4",
                                                     "bit 5", "bit 6", "bit 7", "the parity bit", "the number of ones"};

/* Why the byte of a refusal is lost: the cause in copy one, and in copy two. */
static void tell_causes(FILE *to, tape_refusal why)
{
    if (why.number == TAPE_LOST_BYTE)
        fprintf(to, " (%s in copy one, %s in copy two)", cause_words[why.cause_one], cause_words[why.cause_two]);
}
