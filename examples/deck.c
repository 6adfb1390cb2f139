/* Loads a program from a TAP file as a board does from its deck:  deck < FILE.tap > PROGRAM
 *
 * Each pulse is handed over as it comes, as an interrupt would; neither a strip nor the file is held. What follows the data block is not read.
 * The program's bytes go to the output, what was found to the error output. The status is 1 where the tape is refused. */
#include <stdio.h>
#include <stdlib.h>

#include "crumbthistle.h"
#include "causes.h"

static uint8_t tap[TAPE_TAP_HEADER_BYTES], work[TAPE_WORK_BYTES(TAPE_MOST_BYTES)], header[TAPE_HEADER_BYTES], data[TAPE_MOST_BYTES];
static uint32_t version, count, at; /* of the TAP file: its version, how many data bytes it has, how many of them were read */

static void refuse(tape_refusal why, uint32_t block, uint64_t from)
{
    why.place += why.number == TAPE_CUT_SHORT ? from : 0; /* a deck counts from its own first pulse */
    fprintf(stderr, "refused %u %u %llu", (unsigned)why.number, (unsigned)block, (unsigned long long)why.place);
    tell_causes(stderr, why);
    fputc('\n', stderr);
    exit(1);
}

/* The next byte of the data, EOF after the last. Where the file has fewer or more, it is refused. */
static int next_byte(void)
{
    int byte = getchar();
    if ((byte == EOF) != (at == count))
        refuse((tape_refusal){.number = TAPE_WRONG_TAP_HEADER}, 0, 0);
    at += byte != EOF;
    return byte;
}

/* The cycles of the pulse that begins with a byte. */
static uint32_t pulse_of(int byte)
{
    uint32_t zero_at = at - 1;
    if (byte != 0 || version == 0)
        return byte != 0 ? 8 * byte : 2048;
    int low = next_byte(), middle = next_byte(), high = next_byte();
    if (high == EOF)
        refuse((tape_refusal){.number = TAPE_CUT_LONG_FORM, .place = zero_at}, 0, 0);
    return low | middle << 8 | high << 16;
}

/* Hears a block of n bytes from a place of the tape on, and answers the place after it. */
static uint64_t hear(uint32_t block, uint64_t from, uint8_t *out, size_t n)
{
    tape_deck deck = tape_deck_begin(n, sizeof work, n);
    for (int byte; tape_deck_said(deck).told == 0 && (byte = next_byte()) != EOF;)
        deck = tape_deck_pulse(deck, pulse_of(byte), work, sizeof work, out, n); /* this is what an interrupt does */
    tape_told said = tape_deck_said(tape_deck_end(deck, work, sizeof work, out, n)); /* an answer stays as it is */
    if (said.refusal.number != TAPE_ACCEPTED)
        refuse(said.refusal, block, from);
    return from + said.end;
}

int main(void)
{
    size_t len = fread(tap, 1, sizeof tap, stdin);
    count = tap[16] | tap[17] << 8 | tap[18] << 16 | (uint32_t)tap[19] << 24;
    tap[16] = tap[17] = tap[18] = tap[19] = 0; /* a TAP file without data */
    tape_tap empty = tape_read_tap(tap, len, NULL, 0);
    if (empty.refusal.number != TAPE_ACCEPTED)
        refuse(empty.refusal, 0, 0);
    version = empty.version;

    uint64_t from = hear(0, 0, header, sizeof header);
    tape_file found = tape_unpack_header(header, sizeof header);
    uint32_t n = found.end - found.start, program = found.type == 1 || found.type == 3; /* a header that is refused has type 0 */
    if (!program || found.end <= found.start || n > TAPE_MOST_BYTES)
        refuse((tape_refusal){.number = program ? TAPE_WRONG_ADDRESSES : TAPE_WRONG_TYPE}, 0, 0);
    hear(1, from, data, n);
    fprintf(stderr, "type %u, $%04X to $%04X, %u bytes, ", (unsigned)found.type, (unsigned)found.start, (unsigned)found.end, (unsigned)n);
    tape_span name = tape_shown_name(header, sizeof header);
    for (uint64_t i = name.offset; i < name.offset + name.length; i++)
        fputc(header[i] < 0x20 || header[i] > 0x7E ? '.' : header[i], stderr);
    fputc('\n', stderr);
    return fwrite(data, 1, n, stdout) == n && fflush(stdout) == 0 ? 0 : 1;
}
