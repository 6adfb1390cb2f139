/* Tells how worn a tape is:  wear < FILE.tap
 *
 * A line for each block that is found: where it starts, what was tried, its bytes, what was answered, and how many of its places were taken
 * from copy one, taken from copy two, and lost; then how many of its bytes are bad, by their causes. Then the totals. The status is 1 where the
 * file is no TAP file or a block is refused. */
#include <stdio.h>

#include "crumbthistle.h"

#include "causes.h"

enum { MOST_FILE = 1 << 20 };

static uint8_t file[MOST_FILE + 1];
static uint32_t pulses[MOST_FILE];

static unsigned long long number(uint64_t n) { return n; }

static void answer(tape_refusal why)
{
    if (why.number == TAPE_ACCEPTED)
        printf("accepted");
    else
        printf("refused %u %u %llu", (unsigned)why.number, (unsigned)why.block, number(why.place));
    tell_causes(stdout, why);
}

/* How many bytes are bad, by each cause that there is; this ends a line. */
static void tell_bad(const uint64_t *causes)
{
    for (int i = 0; i < TAPE_CAUSES; i++)
        if (causes[i] != 0)
            printf(", %llu bad by %s", number(causes[i]), cause_words[i]);
    putchar('\n');
}

static void tell(tape_walked b, int data)
{
    printf("%llu %s %llu ", number(b.start), data ? "data" : "header", number(b.n));
    answer(b.refusal);
    printf(" one %llu two %llu lost %llu", number(b.one), number(b.two), number(b.lost));
    tell_bad(b.causes);
}

int main(void)
{
    size_t len = fread(file, 1, sizeof file, stdin);
    if (len > MOST_FILE) {
        printf("the file is longer than %d bytes\n", MOST_FILE);
        return 1;
    }
    tape_tap tape = tape_read_tap(file, len, pulses, MOST_FILE);
    if (tape.refusal.number != TAPE_ACCEPTED) {
        answer(tape.refusal);
        putchar('\n');
        return 1;
    }

    int status = 0;
    tape_walked b;
    for (tape_walk at = {0, 0}; (b = tape_walk_block(pulses, tape.count, at)).found; at = b.next) {
        tell(b, at.length != 0);
        status |= b.refusal.number != TAPE_ACCEPTED;
    }

    tape_wear none = {0};
    tape_wear t = tape_report_strip(none, pulses, tape.count).totals;
    printf("pulses %llu short %llu medium %llu long %llu noise\n", number(t.shorts), number(t.mediums), number(t.longs), number(t.noises));
    printf("places %llu one %llu two %llu lost", number(t.one), number(t.two), number(t.lost));
    tell_bad(t.causes);
    return status;
}
