/* The C interface as a C program sees it: layout and numbers, null pointers with length 0, a deck pulse by pulse, and the stack that each call
 * uses. */
#include <stdio.h>
#include <stdlib.h>
#include <string.h>
#include <ucontext.h>

#include "crumbthistle.h"

#define EXPECT(fact) ((fact) ? (void)0 : (printf("not so: line %d: %s\n", __LINE__, #fact), exit(1)))

enum { LEADER0 = 64, LEADER1 = 100, START = 0x0801, N = TAPE_MOST_BYTES };
enum { PULSES = TAPE_FILE_PULSES(N, LEADER0, LEADER1), STACK = 1 << 16, PAINT = 0xA5, FRAME = 128 };

static uint8_t bytes[N], data[N], header[TAPE_HEADER_BYTES], tap[TAPE_TAP_HEADER_BYTES + PULSES], work[TAPE_WORK_BYTES(N)];
static uint32_t pulses[PULSES], block[PULSES];
static size_t count, block_count, tap_len;
static tape_deck deck;
static tape_told said;

/* Layout and numbers, as the library has them. */
_Static_assert(TAPE_VERSION == 5, "this test is of version 5");
#define AT(type, field, offset) _Static_assert(offsetof(type, field) == (offset), #type "." #field)
#define SIZE(type, size) _Static_assert(sizeof(type) == (size), #type)
SIZE(tape_refusal, 24); AT(tape_refusal, number, 0); AT(tape_refusal, block, 4); AT(tape_refusal, place, 8);
AT(tape_refusal, cause_one, 16); AT(tape_refusal, cause_two, 20);
SIZE(tape_byte, 12); AT(tape_byte, good, 0); AT(tape_byte, value, 4); AT(tape_byte, cause, 8);
SIZE(tape_put, 32); AT(tape_put, refusal, 0); AT(tape_put, count, 24);
SIZE(tape_block, 48); AT(tape_block, refusal, 0); AT(tape_block, n, 24); AT(tape_block, start, 32); AT(tape_block, end, 40);
SIZE(tape_file, 48); AT(tape_file, refusal, 0); AT(tape_file, type, 24); AT(tape_file, start, 28); AT(tape_file, end, 32); AT(tape_file, stop, 40);
SIZE(tape_tap, 40); AT(tape_tap, refusal, 0); AT(tape_tap, version, 24); AT(tape_tap, count, 32);
SIZE(tape_span, 40); AT(tape_span, refusal, 0); AT(tape_span, offset, 24); AT(tape_span, length, 32);
SIZE(tape_wear, 152); AT(tape_wear, strips, 0); AT(tape_wear, shorts, 8); AT(tape_wear, mediums, 16); AT(tape_wear, longs, 24);
AT(tape_wear, noises, 32); AT(tape_wear, one, 40); AT(tape_wear, two, 48); AT(tape_wear, lost, 56); AT(tape_wear, causes, 64);
SIZE(tape_report, 176); AT(tape_report, refusal, 0); AT(tape_report, totals, 24);
SIZE(tape_walk, 16); AT(tape_walk, from, 0); AT(tape_walk, length, 8);
SIZE(tape_walked, 184); AT(tape_walked, refusal, 0); AT(tape_walked, found, 24); AT(tape_walked, n, 32); AT(tape_walked, start, 40);
AT(tape_walked, end, 48); AT(tape_walked, one, 56); AT(tape_walked, two, 64); AT(tape_walked, lost, 72); AT(tape_walked, causes, 80);
AT(tape_walked, next, 168);
SIZE(tape_deck, 32); AT(tape_deck, n, 0); AT(tape_deck, taken, 4); AT(tape_deck, start, 8); AT(tape_deck, place, 12); AT(tape_deck, phase, 16);
AT(tape_deck, heard, 17); AT(tape_deck, answer, 18); AT(tape_deck, refused, 19); AT(tape_deck, bits, 20); AT(tape_deck, last, 22);
AT(tape_deck, wrong, 23); AT(tape_deck, lost, 24); AT(tape_deck, failed, 28); AT(tape_deck, sum, 29); AT(tape_deck, cause_one, 30);
AT(tape_deck, cause_two, 31);
SIZE(tape_told, 56); AT(tape_told, refusal, 0); AT(tape_told, told, 24); AT(tape_told, n, 32); AT(tape_told, start, 40); AT(tape_told, end, 48);
_Static_assert(TAPE_WORK_BYTES(1) == 22 && TAPE_WORK_BYTES(TAPE_MOST_DECK_BYTES) == 131088, "the working buffer of a deck");
_Static_assert(TAPE_STACK_DECK_PULSE <= 256, "a pulse needs at most 256 bytes of stack");

/* Each refusal that a small input gives, by its name. */
static void refusals(void)
{
    uint8_t file[24] = "C64-TAPE-RAW\1\0\0\0\1\0\0\0\0";
    uint32_t odd = 7, over = 16777216;
    EXPECT(tape_write_block(bytes, N + 1, LEADER0, block, PULSES).refusal.number == TAPE_WRONG_SIZE);
    EXPECT(tape_write_block(bytes, N, LEADER0, block, TAPE_BLOCK_PULSES(N, LEADER0) - 1).refusal.number == TAPE_NO_ROOM);
    EXPECT(tape_write_block(bytes, N, TAPE_LEAST_LEADER - 1, block, PULSES).refusal.number == TAPE_WRONG_LEADER);
    EXPECT(tape_write_block(bytes, N, TAPE_MOST_LEADER + 1, block, PULSES).refusal.number == TAPE_WRONG_LEADER);
    EXPECT(tape_write_file(1, 0, 1, bytes, TAPE_NAME_BYTES + 1, bytes, 1, LEADER0, LEADER1, pulses, PULSES).refusal.number == TAPE_WRONG_SIZE);
    EXPECT(tape_write_file(2, 0, 1, bytes, 1, bytes, 1, LEADER0, LEADER1, pulses, PULSES).refusal.number == TAPE_WRONG_TYPE);
    EXPECT(tape_write_file(1, 0, 2, bytes, 1, bytes, 1, LEADER0, LEADER1, pulses, PULSES).refusal.number == TAPE_WRONG_ADDRESSES);
    EXPECT(tape_write_file(1, 0, 1, bytes, 1, bytes, 1, LEADER0, 0, pulses, PULSES).refusal.block == 1);
    EXPECT(tape_unpack_header(header, sizeof header).refusal.number == TAPE_WRONG_TYPE);
    EXPECT(tape_shown_name(header, sizeof header).refusal.number == TAPE_WRONG_TYPE);
    EXPECT(tape_shown_name(header, sizeof header - 1).refusal.number == TAPE_WRONG_SIZE);
    EXPECT(tape_read_tap(file, 20, pulses, PULSES).refusal.number == TAPE_WRONG_TAP_HEADER);
    EXPECT(tape_read_tap(file, 21, pulses, PULSES).refusal.number == TAPE_CUT_LONG_FORM);
    EXPECT(tape_write_tap(&odd, 1, 0, tap, sizeof tap).refusal.number == TAPE_NO_TAP_FORM);
    EXPECT(tape_write_tap(&over, 1, 1, tap, sizeof tap).refusal.number == TAPE_NO_TAP_FORM);
    EXPECT(tape_write_tap(&odd, 1, 2, tap, sizeof tap).refusal.number == TAPE_WRONG_TAP_VERSION);
    EXPECT(tape_write_tap(&odd, TAPE_MOST_DURATIONS + 1, 1, tap, 0).refusal.number == TAPE_WRONG_SIZE);
    EXPECT(tape_walk_block(&odd, 1, (tape_walk){0, N + 1}).refusal.number == TAPE_WRONG_SIZE);
}

/* A step without a block: where the walk stands is as it was lent, and all else is 0. */
static void no_block(tape_walk at, uint32_t number)
{
    tape_walked none = {.refusal = {.number = number}, .next = at};
    tape_walked w = tape_walk_block(NULL, 0, at);
    EXPECT(memcmp(&w.refusal, &none.refusal, sizeof w.refusal) == 0 && w.found == 0);
    EXPECT(memcmp(&w.n, &none.n, sizeof w - offsetof(tape_walked, n)) == 0);
}

/* Totals that are full stay as they are; the last that are not are added to. */
static void full_totals(void)
{
    tape_wear last = {999, 1000000000000, 1, 2, 3, 4, 5, 6, {7, 8, 9, 10, 11, 12, 13, 14, 15, 16, 1000000000000}};
    tape_wear strips = {.strips = 1000}, high = {.lost = 1000000000001};
    tape_report r = tape_report_strip(strips, NULL, 0);
    EXPECT(r.refusal.number == TAPE_WRONG_SIZE && memcmp(&r.totals, &strips, sizeof strips) == 0);
    r = tape_report_strip(high, NULL, 0);
    EXPECT(r.refusal.number == TAPE_WRONG_SIZE && memcmp(&r.totals, &high, sizeof high) == 0);
    for (int i = 0; i < TAPE_CAUSES; i++) {
        tape_wear bad = {.causes = {0}};
        bad.causes[i] = 1000000000001;
        r = tape_report_strip(bad, NULL, 0);
        EXPECT(r.refusal.number == TAPE_WRONG_SIZE && memcmp(&r.totals, &bad, sizeof bad) == 0);
    }
    r = tape_report_strip(last, NULL, 0);
    last.strips++;
    EXPECT(r.refusal.number == TAPE_ACCEPTED && memcmp(&r.totals, &last, sizeof last) == 0);
}

/* A null pointer with length 0 is empty, where it is refused and where it is not. */
static void null_pointers(void)
{
    uint8_t file[TAPE_TAP_HEADER_BYTES];
    EXPECT(tape_write_block(NULL, 0, LEADER0, NULL, 0).refusal.number == TAPE_WRONG_SIZE);
    EXPECT(tape_read_byte(NULL, 0, 0).good == 0 && tape_read_byte(NULL, 0, SIZE_MAX).cause == TAPE_CAUSE_MARKER);
    EXPECT(tape_read_block(NULL, 0, 0, 1, data, 1).refusal.number == TAPE_NO_START);
    EXPECT(tape_read_block(NULL, 0, 0, 1, NULL, 0).refusal.number == TAPE_NO_ROOM);
    EXPECT(tape_write_file(1, 1, 2, NULL, 0, bytes, 1, LEADER0, LEADER1, NULL, 0).refusal.number == TAPE_NO_ROOM);
    EXPECT(tape_write_file(1, 1, 2, NULL, 0, bytes, 1, LEADER0, LEADER1, pulses, PULSES).count == TAPE_FILE_PULSES(1, LEADER0, LEADER1));
    EXPECT(tape_read_file(NULL, 0, 0, NULL, 0, NULL, 0).refusal.number == TAPE_NO_START);
    EXPECT(tape_pack_header(1, 1, 2, NULL, 0, NULL, 0).refusal.number == TAPE_NO_ROOM);
    EXPECT(tape_pack_header(1, 1, 2, NULL, 0, header, sizeof header).count == TAPE_HEADER_BYTES);
    tape_span name = tape_shown_name(header, sizeof header);
    EXPECT(name.refusal.number == TAPE_ACCEPTED && name.offset == 5 && name.length == 0);
    EXPECT(tape_unpack_header(NULL, 0).refusal.number == TAPE_WRONG_SIZE);
    name = tape_shown_name(NULL, 0);
    EXPECT(name.refusal.number == TAPE_WRONG_SIZE && name.offset == 0 && name.length == 0);
    EXPECT(tape_write_tap(NULL, 0, 1, NULL, 0).refusal.number == TAPE_NO_ROOM);
    EXPECT(tape_write_tap(NULL, 0, 1, file, sizeof file).count == TAPE_TAP_HEADER_BYTES);
    EXPECT(tape_read_tap(file, sizeof file, NULL, 0).refusal.number == TAPE_ACCEPTED);
    EXPECT(tape_read_tap(NULL, 0, NULL, 0).refusal.number == TAPE_WRONG_TAP_HEADER);
}

/* Each call once, accepted, with every number of its answer, in an order in which one makes the input of the next. */
static void nothing(void) { }

static void write_file(void)
{
    count = tape_write_file(3, START, START + N, bytes, 16, bytes, N, LEADER0, LEADER1, pulses, PULSES).count;
    EXPECT(count == TAPE_FILE_PULSES(N, LEADER0, LEADER1));
}

static void read_file(void)
{
    tape_file f = tape_read_file(pulses, count, 0, header, sizeof header, data, sizeof data);
    EXPECT(f.refusal.number == TAPE_ACCEPTED && f.type == 3 && f.start == START && f.end == START + N && f.stop == count - 61);
}

static void write_block(void)
{
    block_count = tape_write_block(bytes, N, LEADER1, block, PULSES).count;
    EXPECT(block_count == TAPE_BLOCK_PULSES(N, LEADER1));
}

static void read_byte(void)
{
    tape_byte whole = tape_read_byte(block, block_count, LEADER1), cut = tape_read_byte(block, LEADER1 + 19, LEADER1);
    EXPECT(whole.good == 1 && whole.value == 0x89 && whole.cause == 0);
    EXPECT(cut.good == 0 && cut.value == 0 && cut.cause == TAPE_CAUSE_PARITY);
}

static void read_block(void)
{
    tape_block b = tape_read_block(block, block_count, 0, N, data, sizeof data);
    EXPECT(b.refusal.number == TAPE_ACCEPTED && b.n == N && b.start == LEADER1 && b.end == block_count - 61);
}

static void pack_header(void)
{
    EXPECT(tape_pack_header(4, 1, 2, bytes, 16, header, sizeof header).count == TAPE_HEADER_BYTES);
}

static void unpack_header(void)
{
    tape_file f = tape_unpack_header(header, sizeof header);
    EXPECT(f.refusal.number == TAPE_ACCEPTED && f.type == 4 && f.start == 1 && f.end == 2 && f.stop == 0);
}

static void shown_name(void)
{
    tape_span name = tape_shown_name(header, sizeof header);
    EXPECT(name.refusal.number == TAPE_ACCEPTED && name.offset == 5 && name.length == 16);
}

static void write_tap(void)
{
    tap_len = tape_write_tap(pulses, count, 1, tap, sizeof tap).count;
    EXPECT(tap_len == TAPE_TAP_HEADER_BYTES + count);
}

static void read_tap(void)
{
    tape_tap t = tape_read_tap(tap, tap_len, pulses, PULSES);
    EXPECT(t.refusal.number == TAPE_ACCEPTED && t.version == 1 && t.count == count);
}

/* The header of the file, then its data block, then no more. */
static void walk_block(void)
{
    static tape_walked h, d;
    h = tape_walk_block(pulses, count, (tape_walk){0, 0});
    EXPECT(h.refusal.number == TAPE_ACCEPTED && h.found == 1 && h.n == TAPE_HEADER_BYTES && h.start == LEADER0);
    EXPECT(h.end == TAPE_BLOCK_PULSES(TAPE_HEADER_BYTES, LEADER0) - 61 && h.one == h.n + 1 && h.two == 0 && h.lost == 0);
    EXPECT(h.next.from == h.end && h.next.length == N);
    d = tape_walk_block(pulses, count, h.next);
    EXPECT(d.refusal.number == TAPE_ACCEPTED && d.found == 1 && d.n == N && d.start == h.end + 61 + LEADER1 && d.end == count - 61);
    EXPECT(d.one == N + 1 && d.two == 0 && d.lost == 0 && d.next.from == d.end && d.next.length == 0);
    for (int i = 0; i < TAPE_CAUSES; i++)
        EXPECT(h.causes[i] == 0 && d.causes[i] == 0);
    h = tape_walk_block(pulses, count, d.next);
    EXPECT(h.refusal.number == TAPE_NO_START && h.found == 0);
}

static void report_strip(void)
{
    static tape_wear none;
    static tape_report r;
    r = tape_report_strip(none, pulses, count);
    EXPECT(r.refusal.number == TAPE_ACCEPTED && r.totals.strips == 1 && r.totals.noises == 0);
    EXPECT(r.totals.shorts + r.totals.mediums + r.totals.longs == count && r.totals.longs == 2 * (TAPE_HEADER_BYTES + N + 20) + 4);
    EXPECT(r.totals.one == TAPE_HEADER_BYTES + N + 2 && r.totals.two == 0 && r.totals.lost == 0);
    for (int i = 0; i < TAPE_CAUSES; i++)
        EXPECT(r.totals.causes[i] == 0);
}

/* The long form counts cycles. */
static void long_form(void)
{
    static const uint8_t file[24] = "C64-TAPE-RAW\1\0\0\0\4\0\0\0\0\x54\3\0";
    uint32_t duration = 852, read = 0;
    EXPECT(tape_write_tap(&duration, 1, 1, tap, sizeof tap).count == sizeof file);
    EXPECT(memcmp(tap, file, sizeof file) == 0);
    EXPECT(tape_read_tap(file, sizeof file, &read, 1).count == 1 && read == duration);
}

/* Turns a bit round: its two pulses change places. */
static void turn(uint32_t *bit)
{
    uint32_t first = bit[0];
    bit[0] = bit[1];
    bit[1] = first;
}

/* In copy two one byte is bad by cause 0, two by cause 1, and so on: the counts stand in the order of the causes. */
static void by_cause(void)
{
    uint32_t *byte = block + LEADER1 + 20 * (N + 10) + 61 + 20 * 9;
    for (int cause = 0; cause < TAPE_CAUSES; cause++)
        for (int i = 0; i <= cause; i++, byte += 20)
            if (cause == TAPE_CAUSE_ONES)
                turn(byte + 2);
            else
                byte[2 * cause + 1] = 0;
    tape_walked w = tape_walk_block(block, block_count, (tape_walk){0, N});
    EXPECT(w.refusal.number == TAPE_ACCEPTED && w.one == N + 1);
    for (uint64_t i = 0; i < TAPE_CAUSES; i++)
        EXPECT(w.causes[i] == i + 1);
    write_block();
}

/* Refusals of a damaged block: what they are called, and their places. */
static void spoilt(void)
{
    size_t one = LEADER1, two = LEADER1 + 20 * (N + 10) + 61;
    tape_block b = tape_read_block(block, block_count - 62, 0, N, data, sizeof data);
    EXPECT(b.refusal.number == TAPE_CUT_SHORT && b.refusal.place == LEADER1 && b.n == 0 && b.start == 0 && b.end == 0);
    turn(block + one + 20 * 9 + 2);
    turn(block + one + 20 * 9 + 4);
    b = tape_read_block(block, block_count, 0, N, data, sizeof data);
    EXPECT(b.refusal.number == TAPE_WRONG_CHECKSUM && b.refusal.place == N && b.refusal.cause_one == 0 && b.refusal.cause_two == 0);
    block[one + 20 * 11 + 9] = block[two + 20 * 11 + 19] = 0;
    b = tape_read_block(block, block_count, 0, N, data, sizeof data);
    EXPECT(b.refusal.number == TAPE_LOST_BYTE && b.refusal.place == 2);
    EXPECT(b.refusal.cause_one == TAPE_CAUSE_BIT + 3 && b.refusal.cause_two == TAPE_CAUSE_PARITY);
    turn(block + two + 20 * 12 + 2);
    tape_byte whole = tape_read_byte(block, block_count, one + 20 * 12), even = tape_read_byte(block, block_count, two + 20 * 12);
    EXPECT(whole.good == 1 && whole.value == bytes[3] && whole.cause == 0 && even.good == 0 && even.value == 0 && even.cause == TAPE_CAUSE_ONES);
    block[one + 20 * 3] = block[two + 20 * 3] = 0;
    b = tape_read_block(block, block_count, 0, N, data, sizeof data);
    EXPECT(b.refusal.number == TAPE_WRONG_COUNTDOWN && b.refusal.place == 3);
    EXPECT(tape_read_block(block, block_count, LEADER1, N, data, sizeof data).refusal.number == TAPE_NO_START);
    tape_walked w = tape_walk_block(block, block_count, (tape_walk){0, N});
    EXPECT(w.refusal.number == TAPE_WRONG_COUNTDOWN && w.refusal.block == 1 && w.refusal.place == 3 && w.found == 1 && w.end == 0);
    EXPECT(w.n == N && w.start == LEADER1 && w.one == N && w.two == 0 && w.lost == 1 && w.next.from == LEADER1 + 1 && w.next.length == 0);
    for (int i = 0; i < TAPE_CAUSES; i++)
        EXPECT(w.causes[i] == (i == TAPE_CAUSE_BIT + 3 || i == TAPE_CAUSE_PARITY || i == TAPE_CAUSE_ONES));
}

/* A deck with buffers for up to 16 bytes, and a margin after each that is never written. Single pulses and the end are lent the margin too, runs
 * just what they need. */
enum { SMALL = 16, MARGIN = 8, K = TAPE_LEAST_LEADER };

typedef struct { tape_deck deck; uint8_t work[TAPE_WORK_BYTES(SMALL) + MARGIN], out[SMALL + MARGIN]; } small_deck;

static void small_begin(small_deck *d, size_t n)
{
    memset(d, PAINT, sizeof *d);
    d->deck = tape_deck_begin(n, TAPE_WORK_BYTES(n), n);
}

static void small_pulse(small_deck *d, uint32_t pulse)
{
    d->deck = tape_deck_pulse(d->deck, pulse, d->work, sizeof d->work, d->out, sizeof d->out);
}

static void small_pulses(small_deck *d, size_t n, const uint32_t *run, size_t length)
{
    d->deck = tape_deck_pulses(d->deck, run, length, d->work, TAPE_WORK_BYTES(n), d->out, n);
}

static void small_end(small_deck *d) { d->deck = tape_deck_end(d->deck, d->work, sizeof d->work, d->out, sizeof d->out); }

/* What is said of a deck, every number of it. */
static void says(tape_deck of, uint32_t told, tape_refusal refusal, uint64_t n, uint64_t start, uint64_t end)
{
    tape_told t = tape_deck_said(of);
    EXPECT(t.told == told && memcmp(&t.refusal, &refusal, sizeof refusal) == 0 && t.n == n && t.start == start && t.end == end);
}

static void says_nothing(tape_deck of) { says(of, 0, (tape_refusal){0}, 0, 0, 0); }
static void says_refused(tape_deck of, uint32_t told, tape_refusal why) { says(of, told, why, 0, 0, 0); }

/* Every call gives a deck back as it is, so that the same is said of it, whatever buffers are lent, and writes nothing. */
static void stays(tape_deck of)
{
    small_deck before, d;
    memset(&before, PAINT, sizeof before);
    memset(before.out, 1, sizeof before.out);
    before.deck = of;
    d = before;
    small_pulse(&d, 360);
    small_pulses(&d, SMALL, block, 100);
    small_pulses(&d, SMALL, NULL, 0);
    small_end(&d);
    d.deck = tape_deck_pulse(d.deck, 360, NULL, 0, NULL, 0);
    d.deck = tape_deck_pulses(d.deck, block, 100, NULL, 0, NULL, 0);
    d.deck = tape_deck_end(d.deck, NULL, 0, NULL, 0);
    EXPECT(memcmp(&d, &before, sizeof d) == 0);
}

/* The fields that the phase does not use are 0. */
static void unused(tape_deck d)
{
    EXPECT(d.refused == 0 && (d.phase == 4 ? d.heard == 0 : d.answer == 0) && (d.phase > 0 || d.start == 0));
    EXPECT(d.phase == 1 || d.phase == 3 || (d.place == 0 && d.bits == 0 && d.last == 0 && d.wrong == 0));
    EXPECT(d.phase >= 3 || (d.lost == 0 && d.failed == 0 && d.sum == 0 && d.cause_one == 0 && d.cause_two == 0));
}

/* Feeds a small block pulse by pulse: nothing is said before the pulse that ends copy two. The same is heard in one run, up to each pulse and past
 * copy two, and cut in two at each place. */
static void heard_whole(small_deck *d, size_t n)
{
    size_t whole = TAPE_BLOCK_PULSES(n, K), copy = 20 * (n + 10), end = K + 2 * copy + 61;
    static small_deck run;
    small_begin(d, n);
    for (size_t i = 0; i < end; i++) {
        says_nothing(d->deck);
        EXPECT(d->deck.n == n && d->deck.taken == i && d->deck.phase == (i < K + 20 ? 0 : i < K + copy ? 1 : i < K + copy + 61 ? 2 : 3));
        run = *d;
        small_pulses(&run, n, NULL, 0);
        EXPECT(memcmp(d, &run, sizeof run) == 0);
        small_pulse(d, block[i]);
        unused(d->deck);
        small_begin(&run, n);
        small_pulses(&run, n, block, i + 1);
        EXPECT(memcmp(d, &run, sizeof run) == 0);
    }
    EXPECT(tape_deck_said(d->deck).told == 1 && d->deck.phase == 4 && d->deck.taken == end);
    for (size_t i = 0; i <= whole; i++) {
        small_begin(&run, n);
        small_pulses(&run, n, block, i);
        small_pulses(&run, n, block + i, whole - i);
        EXPECT(memcmp(d, &run, sizeof run) == 0);
    }
    stays(d->deck);
}

/* The end told after each number of pulses before the end of copy two: 3 before the start is settled, then 4. No buffer changes. */
static void heard_in_part(size_t n)
{
    static small_deck d, before;
    for (size_t i = 0; i < TAPE_BLOCK_PULSES(n, K) - 61; i++) {
        int none = i < K + 20;
        small_begin(&d, n);
        small_pulses(&d, n, block, i);
        before = d;
        before.deck = (tape_deck){.n = n, .taken = i, .start = none ? 0 : K, .phase = 4, .answer = none ? TAPE_NO_START : TAPE_CUT_SHORT};
        small_end(&d);
        EXPECT(memcmp(&d, &before, sizeof d) == 0);
        says_refused(d.deck, 1, none ? (tape_refusal){.number = TAPE_NO_START} : (tape_refusal){.number = TAPE_CUT_SHORT, .place = K});
        stays(d.deck);
    }
}

/* A place of the working buffer: a value and 0, or 0 and a cause plus 1. */
static int place_is(const small_deck *d, size_t place, uint8_t value, uint8_t mark)
{
    return d->work[2 * place] == value && d->work[2 * place + 1] == mark;
}

/* The output has the payload, or nothing was put there; past what is needed nothing was put in either buffer. */
static void filled(const small_deck *d, size_t n, int accepted)
{
    for (size_t i = 0; i < n; i++)
        EXPECT(d->out[i] == (accepted ? bytes[i] : PAINT));
    for (size_t i = n; i < sizeof d->out; i++)
        EXPECT(d->out[i] == PAINT);
    for (size_t i = TAPE_WORK_BYTES(n); i < sizeof d->work; i++)
        EXPECT(d->work[i] == PAINT);
}

/* A sound block; one that copy two repairs; and, each with one fault more than the last, those that are refused with 7, 6 and 5. */
static void deck_answers(size_t n)
{
    static small_deck d;
    size_t end = K + 40 * (n + 10) + 61, sum_at = n + 9, last_at = n + 8;
    uint32_t *one = block + K, *two = one + 20 * (n + 10) + 61;
    uint8_t sum = 0;
    EXPECT(tape_write_block(bytes, n, K, block, PULSES).count == TAPE_BLOCK_PULSES(n, K));
    heard_whole(&d, n);
    heard_in_part(n);
    says(d.deck, 1, (tape_refusal){0}, n, K, end);
    filled(&d, n, 1);
    for (size_t i = 0; i < 9; i++)
        EXPECT(place_is(&d, i, (uint8_t)(0x89 - i), 0));
    for (size_t i = 0; i < n; sum ^= bytes[i++])
        EXPECT(place_is(&d, 9 + i, bytes[i], 0));
    EXPECT(place_is(&d, sum_at, sum, 0));
    tape_deck answered = {.n = n, .taken = end, .start = K, .phase = 4, .lost = n + 1, .failed = 9, .sum = sum};
    EXPECT(memcmp(&d.deck, &answered, sizeof answered) == 0);

    /* noise in the leader and between the copies; a countdown byte and the checksum bad in copy one */
    block[0] = one[20 * (n + 10)] = UINT32_MAX;
    one[20 * 5] = one[20 * sum_at + 2] = 960;
    small_begin(&d, n);
    small_pulses(&d, n, block, end - 1);
    EXPECT(place_is(&d, sum_at, 0, TAPE_CAUSE_BIT + 1));
    heard_whole(&d, n);
    says(d.deck, 1, (tape_refusal){0}, n, K, end);
    filled(&d, n, 1);
    EXPECT(place_is(&d, 5, 0, TAPE_CAUSE_MARKER + 1) && place_is(&d, sum_at, sum, 0));

    /* two bits of the first byte are turned round in copy one: it is good, with another value */
    turn(one + 20 * 9 + 2);
    turn(one + 20 * 9 + 4);
    heard_whole(&d, n);
    says_refused(d.deck, 1, (tape_refusal){.number = TAPE_WRONG_CHECKSUM, .place = n});
    filled(&d, n, 0);
    EXPECT(place_is(&d, 9, bytes[0] ^ 3, 0));

    /* the last byte is bad in both copies; then the checksum too */
    one[20 * last_at + 9] = two[20 * last_at + 19] = 0;
    heard_whole(&d, n);
    says_refused(d.deck, 1, (tape_refusal){TAPE_LOST_BYTE, 0, n - 1, TAPE_CAUSE_BIT + 3, TAPE_CAUSE_PARITY});
    filled(&d, n, 0);
    EXPECT(place_is(&d, last_at, 0, TAPE_CAUSE_BIT + 3 + 1) && place_is(&d, sum_at, sum, 0));
    two[20 * sum_at] = 0;
    heard_whole(&d, n);
    says_refused(d.deck, 1, (tape_refusal){TAPE_LOST_BYTE, 0, n - 1, TAPE_CAUSE_BIT + 3, TAPE_CAUSE_PARITY});
    EXPECT(place_is(&d, sum_at, 0, TAPE_CAUSE_BIT + 1));
    two[20 * sum_at] = 688;

    /* two countdown bytes are bad in both copies */
    one[20 * 3] = two[20 * 3] = two[20 * 5] = 0;
    heard_whole(&d, n);
    heard_in_part(n);
    says_refused(d.deck, 1, (tape_refusal){.number = TAPE_WRONG_COUNTDOWN, .place = 3});
    filled(&d, n, 0);
    EXPECT(place_is(&d, sum_at, sum, 0));
}

/* Refusals at the beginning. Such a deck stays as it is. */
static void not_begun(size_t n, size_t work_room, size_t room, uint32_t number)
{
    tape_deck none = tape_deck_begin(n, work_room, room);
    EXPECT(memcmp(&none, &(tape_deck){.refused = (uint8_t)number}, sizeof none) == 0);
    says_refused(none, 2, (tape_refusal){.number = number});
    stays(none);
}

/* A call that was refused: only its number is noted. */
static void noted(tape_deck before, tape_deck after, uint32_t number)
{
    before.refused = (uint8_t)number;
    EXPECT(memcmp(&after, &before, sizeof after) == 0);
    says_refused(after, 2, (tape_refusal){.number = number});
}

/* Refusals before an answer, after each number of pulses: 1, then 2. Nothing is written, and the next call that is not refused goes on. */
static void deck_refuses(size_t n)
{
    size_t w = TAPE_WORK_BYTES(n), end = TAPE_BLOCK_PULSES(n, K) - 61;
    static small_deck d, plain, late;
    EXPECT(tape_write_block(bytes, n, K, block, PULSES).count == TAPE_BLOCK_PULSES(n, K));
    small_begin(&d, n);
    small_begin(&plain, n);
    for (size_t i = 0; i < end; i++) {
        noted(plain.deck, tape_deck_pulse(d.deck, block[i], d.work, w - 1, d.out, n), TAPE_NO_ROOM);
        noted(plain.deck, tape_deck_pulse(d.deck, block[i], d.work, w, d.out, n - 1), TAPE_NO_ROOM);
        noted(plain.deck, tape_deck_pulses(d.deck, block + i, end - i, d.work, w - 1, d.out, n), TAPE_NO_ROOM);
        noted(plain.deck, tape_deck_pulses(d.deck, NULL, 0, NULL, 0, NULL, 0), TAPE_NO_ROOM);
        noted(plain.deck, tape_deck_end(d.deck, d.work, w, d.out, n - 1), TAPE_NO_ROOM);
        EXPECT(memcmp(&d, &plain, sizeof d) == 0);

        late = d; /* one pulse more may be taken; two may not, also where the first ends copy two */
        late.deck.taken = UINT32_MAX - 1;
        noted(late.deck, tape_deck_pulses(late.deck, block + i, 2, d.work, w, d.out, n), TAPE_WRONG_SIZE);
        noted(late.deck, tape_deck_pulses(late.deck, block + i, 2, NULL, 0, NULL, 0), TAPE_WRONG_SIZE);
        EXPECT(memcmp(&d, &plain, sizeof d) == 0);
        small_pulse(&late, block[i]);
        EXPECT(late.deck.taken == UINT32_MAX && tape_deck_said(late.deck).told == (i == end - 1));
        if (i < end - 1) {
            noted(late.deck, tape_deck_pulse(late.deck, 360, NULL, 0, NULL, 0), TAPE_WRONG_SIZE);
            small_pulses(&late, n, NULL, 0);
            says_nothing(late.deck);
            small_end(&late);
            EXPECT(tape_deck_said(late.deck).told == 1);
        }

        d.deck = tape_deck_pulse(d.deck, block[i], NULL, 0, NULL, 0);
        noted(plain.deck, d.deck, TAPE_NO_ROOM);
        small_pulse(&d, block[i]);
        small_pulse(&plain, block[i]);
        EXPECT(memcmp(&d, &plain, sizeof d) == 0);
    }
    says(d.deck, 1, (tape_refusal){0}, n, K, end);
}

/* States that a program made up. One that is not sound stays as it is, with refusal 2 where it says so, else 1. */
static void unsound(tape_deck state)
{
    says_refused(state, 2, (tape_refusal){.number = state.refused == TAPE_NO_ROOM ? TAPE_NO_ROOM : TAPE_WRONG_SIZE});
    stays(state);
}

/* A sound one is taken: with no room that is noted, and a run of no pulses changes nothing else; one that has answered stays as it is. */
static void sound(tape_deck state)
{
    static uint8_t room[TAPE_WORK_BYTES(TAPE_MOST_DECK_BYTES)], out[TAPE_MOST_DECK_BYTES];
    tape_deck run = tape_deck_pulses(state, NULL, 0, room, sizeof room, out, sizeof out);
    EXPECT(tape_deck_said(state).told == (state.refused != 0 ? 2 : state.phase == 4));
    if (state.phase == 4)
        stays(state);
    else {
        noted(state, tape_deck_pulse(state, 360, NULL, 0, NULL, 0), TAPE_NO_ROOM);
        noted(state, tape_deck_end(state, NULL, 0, NULL, 0), TAPE_NO_ROOM);
    }
    state.refused = 0;
    EXPECT(memcmp(&run, &state, sizeof run) == 0);
}

/* The limits of what is sound. */
static void made_up(void)
{
    tape_deck zeros, ones;
    memset(&zeros, 0, sizeof zeros);
    memset(&ones, 0xFF, sizeof ones);
    says_refused(zeros, 2, (tape_refusal){.number = TAPE_WRONG_SIZE});
    says_refused(ones, 2, (tape_refusal){.number = TAPE_WRONG_SIZE});
    unsound(zeros);
    unsound(ones);
    unsound((tape_deck){.refused = 2});
    sound((tape_deck){.n = 1});
    sound((tape_deck){.n = TAPE_MOST_DECK_BYTES, .refused = 2});
    unsound((tape_deck){.n = TAPE_MOST_DECK_BYTES + 1});
    unsound((tape_deck){.n = 1, .refused = 3});
    unsound((tape_deck){.n = 1, .phase = 5});
    sound((tape_deck){.n = 1, .taken = 35, .heard = 35, .start = 7, .place = 7, .wrong = 255, .lost = 7, .sum = 7});
    unsound((tape_deck){.n = 1, .taken = 34, .heard = 35});
    unsound((tape_deck){.n = 1, .taken = 36, .heard = 36});
    for (uint8_t phase = 1; phase <= 3; phase += 2) {
        sound((tape_deck){.n = 2, .phase = phase, .place = 11, .heard = 19, .bits = 65535, .last = 255, .wrong = 10, .lost = 7, .failed = 255});
        unsound((tape_deck){.n = 2, .phase = phase, .place = 12});
        unsound((tape_deck){.n = 2, .phase = phase, .heard = 20});
        unsound((tape_deck){.n = 2, .phase = phase, .wrong = 11});
    }
    sound((tape_deck){.n = 1, .phase = 2, .heard = 60, .place = UINT32_MAX, .answer = 255});
    unsound((tape_deck){.n = 1, .phase = 2, .heard = 61});
    for (int answer = 0; answer <= UINT8_MAX; answer++)
        (answer == 0 || (answer >= 3 && answer <= 7) ? sound : unsound)((tape_deck){.n = 1, .phase = 4, .answer = (uint8_t)answer, .place = 7});
    unsound((tape_deck){.n = 1, .phase = 4, .refused = 1});
    says((tape_deck){.n = TAPE_MOST_DECK_BYTES, .phase = 4, .start = UINT32_MAX}, 1, (tape_refusal){0}, TAPE_MOST_DECK_BYTES, UINT32_MAX,
         (uint64_t)UINT32_MAX + 2621821);
}

static void decks(void)
{
    for (size_t n = 1; n <= SMALL; n += SMALL - 1) {
        deck_answers(n);
        deck_refuses(n);
    }
    not_begun(0, 0, 0, TAPE_WRONG_SIZE);
    not_begun(TAPE_MOST_DECK_BYTES + 1, 0, 0, TAPE_WRONG_SIZE);
    not_begun(SIZE_MAX, SIZE_MAX, SIZE_MAX, TAPE_WRONG_SIZE);
    not_begun(1, 21, 1, TAPE_NO_ROOM);
    not_begun(1, 22, 0, TAPE_NO_ROOM);
    not_begun(TAPE_MOST_DECK_BYTES, 131087, SIZE_MAX, TAPE_NO_ROOM);
    not_begun(TAPE_MOST_DECK_BYTES, SIZE_MAX, TAPE_MOST_DECK_BYTES - 1, TAPE_NO_ROOM);
    says_nothing(tape_deck_begin(TAPE_MOST_DECK_BYTES, 131088, TAPE_MOST_DECK_BYTES));
    made_up();
}

/* The calls of a deck on the block that write_block wrote, each for a painted stack. */
static void deck_begin(void) { deck = tape_deck_begin(N, sizeof work, sizeof data); }

static void deck_pulse(void)
{
    for (size_t i = 0; i < block_count; i++)
        deck = tape_deck_pulse(deck, block[i], work, sizeof work, data, sizeof data);
}

static void deck_pulses(void) { deck = tape_deck_pulses(deck, block, block_count, work, sizeof work, data, sizeof data); }

static void deck_end(void) { deck = tape_deck_end(deck, work, sizeof work, data, sizeof data); }

static void deck_said(void) { said = tape_deck_said(deck); }

/* Runs a call on a painted stack, and answers how far down the paint is gone. */
static size_t stack_of(void (*call)(void))
{
    static uint8_t stack[STACK];
    static ucontext_t here, there;
    memset(stack, PAINT, sizeof stack);
    getcontext(&there);
    there.uc_stack.ss_sp = stack;
    there.uc_stack.ss_size = sizeof stack;
    there.uc_link = &here;
    makecontext(&there, call, 0);
    swapcontext(&here, &there);
    size_t untouched = 0;
    while (untouched < sizeof stack && stack[untouched] == PAINT)
        untouched++;
    return sizeof stack - untouched;
}

/* No call uses more than the header states, beside what this program's own function takes. Long answers and totals are counted by the caller. */
static void on_painted_stack(const char *name, void (*call)(void), size_t stated)
{
    size_t used = stack_of(call) - stack_of(nothing);
    if (used > stated + FRAME) {
        printf("%s used %zu bytes of stack, the header states %zu\n", name, used, stated);
        exit(1);
    }
}

/* The five calls of a deck: a block is accepted pulse by pulse and as a run, and 4 is told with the end. The caller counts the state that it
 * passes and the one that is returned. */
static void decks_on_painted_stack(void)
{
    size_t passed = 2 * sizeof(tape_deck);
    tape_deck begun;
    on_painted_stack("tape_deck_begin", deck_begin, TAPE_STACK_DECK_BEGIN + sizeof(tape_deck));
    begun = deck;
    on_painted_stack("tape_deck_pulse", deck_pulse, TAPE_STACK_DECK_PULSE + passed);
    on_painted_stack("tape_deck_said", deck_said, TAPE_STACK_DECK_SAID + sizeof(tape_deck) + sizeof(tape_told));
    EXPECT(said.told == 1 && said.refusal.number == TAPE_ACCEPTED && said.n == N && said.start == LEADER1 && said.end == block_count - 61);
    EXPECT(memcmp(bytes, data, sizeof data) == 0);
    memset(data, 0, sizeof data);
    deck = begun;
    on_painted_stack("tape_deck_pulses", deck_pulses, TAPE_STACK_DECK_PULSES + passed);
    EXPECT(tape_deck_said(deck).end == block_count - 61 && memcmp(bytes, data, sizeof data) == 0);
    deck = tape_deck_pulses(begun, block, block_count - 62, work, sizeof work, data, sizeof data);
    on_painted_stack("tape_deck_end", deck_end, TAPE_STACK_DECK_END + passed);
    EXPECT(tape_deck_said(deck).refusal.number == TAPE_CUT_SHORT);
}

int main(void)
{
    for (size_t i = 0; i < sizeof bytes; i++)
        bytes[i] = (uint8_t)(i * 7 + i / 256 + 1);
    refusals();
    null_pointers();
    on_painted_stack("tape_write_file", write_file, TAPE_STACK_WRITE_FILE);
    on_painted_stack("tape_read_file", read_file, TAPE_STACK_READ_FILE);
    on_painted_stack("tape_write_block", write_block, TAPE_STACK_WRITE_BLOCK);
    on_painted_stack("tape_read_byte", read_byte, TAPE_STACK_READ_BYTE);
    on_painted_stack("tape_read_block", read_block, TAPE_STACK_READ_BLOCK);
    EXPECT(memcmp(bytes, data, sizeof data) == 0);
    memset(data, 0, sizeof data);
    decks_on_painted_stack();
    on_painted_stack("tape_pack_header", pack_header, TAPE_STACK_PACK_HEADER);
    on_painted_stack("tape_unpack_header", unpack_header, TAPE_STACK_UNPACK_HEADER);
    on_painted_stack("tape_shown_name", shown_name, TAPE_STACK_SHOWN_NAME);
    on_painted_stack("tape_write_tap", write_tap, TAPE_STACK_WRITE_TAP);
    on_painted_stack("tape_read_tap", read_tap, TAPE_STACK_READ_TAP);
    on_painted_stack("tape_walk_block", walk_block, TAPE_STACK_WALK_BLOCK + sizeof(tape_walked));
    on_painted_stack("tape_report_strip", report_strip, TAPE_STACK_REPORT_STRIP + sizeof(tape_wear) + sizeof(tape_report));
    no_block((tape_walk){0, 0}, TAPE_NO_START);
    no_block((tape_walk){UINT64_MAX, N}, TAPE_NO_START);
    no_block((tape_walk){7, UINT64_MAX}, TAPE_WRONG_SIZE);
    full_totals();
    long_form();
    by_cause();
    spoilt();
    decks();
    puts("the C interface is as its header says");
    return 0;
}
