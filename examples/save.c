/* Saves a program as a TAP file of version 1:  save NAME START < PROGRAM > FILE.tap
 *
 * START is the load address in hexadecimal; the file has type 1 and leaders of 1,000 pulses. The status is 1 where it is refused. */
#include <stdio.h>
#include <stdlib.h>
#include <string.h>

#include "crumbthistle.h"

enum { LEADER = 1000, MOST_PULSES = TAPE_FILE_PULSES(TAPE_MOST_BYTES, LEADER, LEADER) };

static uint8_t data[TAPE_MOST_BYTES + 1];
static uint32_t pulses[MOST_PULSES];
static uint8_t file[TAPE_TAP_HEADER_BYTES + MOST_PULSES];

static int refused(tape_refusal why)
{
    fprintf(stderr, "refused %u %u %llu\n", (unsigned)why.number, (unsigned)why.block, (unsigned long long)why.place);
    return 1;
}

int main(int argc, char **argv)
{
    if (argc != 3) {
        fprintf(stderr, "usage: save NAME START < PROGRAM > FILE.tap\n");
        return 1;
    }
    char *rest;
    unsigned long start = strtoul(argv[2], &rest, 16);
    size_t n = fread(data, 1, sizeof data, stdin);
    if (rest == argv[2] || *rest != '\0' || start > 0xFFFF || n > TAPE_MOST_BYTES || start + n > 0xFFFF) {
        fprintf(stderr, "START is no address, or the program has over %d bytes, or ends above $FFFF\n", TAPE_MOST_BYTES);
        return 1;
    }
    tape_put strip = tape_write_file(1, (uint16_t)start, (uint16_t)(start + n), (const uint8_t *)argv[1], strlen(argv[1]),
                                     data, n, LEADER, LEADER, pulses, MOST_PULSES);
    if (strip.refusal.number != TAPE_ACCEPTED)
        return refused(strip.refusal);

    tape_put tape = tape_write_tap(pulses, strip.count, 1, file, sizeof file);
    if (tape.refusal.number != TAPE_ACCEPTED)
        return refused(tape.refusal);
    return fwrite(file, 1, tape.count, stdout) == tape.count && fflush(stdout) == 0 ? 0 : 1;
}
