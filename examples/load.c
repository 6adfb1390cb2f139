/* Loads a program from a TAP file:  load < FILE.tap > PROGRAM
 *
 * The program's bytes go to the output, what was found to the error output. The status is 1 where the tape is refused; a byte that is lost is
 * told with why it is bad in each copy. */
#include <stdio.h>

#include "crumbthistle.h"

#include "causes.h"

enum { MOST_FILE = 1 << 20 };

static uint8_t file[MOST_FILE + 1];
static uint32_t pulses[MOST_FILE];
static uint8_t header[TAPE_HEADER_BYTES];
static uint8_t data[TAPE_MOST_BYTES];

static int refused(tape_refusal why)
{
    fprintf(stderr, "refused %u %u %llu", (unsigned)why.number, (unsigned)why.block, (unsigned long long)why.place);
    tell_causes(stderr, why);
    fputc('\n', stderr);
    return 1;
}

static void tell(tape_file found, tape_span name)
{
    fprintf(stderr, "type %u, $%04X to $%04X, ", (unsigned)found.type, (unsigned)found.start, (unsigned)found.end);
    for (uint64_t i = 0; i < name.length; i++) {
        uint8_t c = header[name.offset + i];
        fputc(c < 0x20 || c > 0x7E ? '.' : c, stderr);
    }
    fputc('\n', stderr);
}

int main(void)
{
    size_t len = fread(file, 1, sizeof file, stdin);
    if (len > MOST_FILE) {
        fprintf(stderr, "the file is longer than %d bytes\n", MOST_FILE);
        return 1;
    }
    tape_tap tape = tape_read_tap(file, len, pulses, MOST_FILE);
    if (tape.refusal.number != TAPE_ACCEPTED)
        return refused(tape.refusal);

    tape_file found = tape_read_file(pulses, tape.count, 0, header, sizeof header, data, sizeof data);
    if (found.refusal.number != TAPE_ACCEPTED)
        return refused(found.refusal);

    tell(found, tape_shown_name(header, sizeof header));
    size_t n = found.end - found.start;
    return fwrite(data, 1, n, stdout) == n && fflush(stdout) == 0 ? 0 : 1;
}
