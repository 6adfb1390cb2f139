/* Crumbthistle: the cassettes that a Commodore 64 writes with SAVE, for C.
 *
 * Pulses, blocks that are recorded twice, headers, program files and TAP files, read and written. What each call answers and leaves in a
 * buffer is proved for every input: any pulses, any bytes, any numbers. A call never reads or writes past a buffer, always returns, and
 * does not rely on the caller having checked its input.
 *
 * The caller has to make sure of what nothing in C can check:
 *   - a pointer points to at least as many elements as its length says; with length 0 it may be null;
 *   - a buffer for output overlaps neither the input nor another output; a deck's working buffer counts as output;
 *   - there is enough stack: see TAPE_STACK_* below.
 *
 * There is no heap, no global state, no file access, and no setting up. Calls on different buffers may run at the same time. The archive
 * is for x86-64 Linux and uses nothing of the C library but memcpy and memset.
 *
 * Refusals. Every answer begins with a tape_refusal, but that of tape_read_byte, which refuses nothing, and a tape_deck, of which
 * tape_deck_said tells. Where a call refuses, every number of its answer after that is 0, and no buffer has been altered; tape_walk_block,
 * tape_report_strip and the calls of a deck say what theirs hold. Where several refusals apply, the first in the call's order is given.
 *
 * Pulses are full periods as counts of CPU cycles. 200 to 439 are short, 440 to 607 medium, 608 to 959 long, all others noise; written are
 * 360, 520 and 688. A place is an index, from 0 on.
 */
#ifndef CRUMBTHISTLE_H
#define CRUMBTHISTLE_H

#include <stddef.h>
#include <stdint.h>

#ifdef __cplusplus
extern "C" {
#endif

/* The version of this interface. It is raised with every change of a call, a struct or a number below that a program which was built
 * before would notice, and with new calls. In version 2 the long form of TAP files counts cycles, where it counted units of eight
 * cycles. In version 3 tape_read_block and tape_read_file need more stack. In version 4 a refusal has the causes of a lost byte, so that every
 * answer which begins with one is longer; totals and steps of a walk have the bad bytes by their causes, and tape_walk_block and
 * tape_report_strip need more stack. In version 5 tape_pack_header, tape_write_tap and tape_read_tap need more stack; tape_deck, tape_told and the
 * five calls of a deck are new. */
#define TAPE_VERSION 5

enum {
    TAPE_ACCEPTED = 0,
    TAPE_WRONG_SIZE = 1,          /* n is 0 or over 8,192; over 1,048,576 durations to write, or pulses to report; a name over 187 bytes; a
                                     header of not 192; a report of 1,000 strips, or with a total above 1,000,000,000,000; of a deck: n is
                                     0 or over 65,534, over 4,294,967,295 pulses in all, or a state that is not sound, unless it says 2 */
    TAPE_NO_ROOM = 2,             /* an output, or a deck's working buffer, is shorter than what must be put there */
    TAPE_NO_START = 3,            /* there is no start: no 16 short pulses at or after `from` with a good byte $89 just after them */
    TAPE_CUT_SHORT = 4,           /* the pulses end before copy two does; place: the block's start */
    TAPE_WRONG_COUNTDOWN = 5,     /* a countdown byte is wrong in copy one ($89 ..) and in copy two ($09 ..); place: the first such, 0 to 8 */
    TAPE_LOST_BYTE = 6,           /* a byte is bad in both copies; place: the first such, 0 to n, n for the checksum; with the causes */
    TAPE_WRONG_CHECKSUM = 7,      /* the repaired bytes do not fit the checksum; place: n */
    TAPE_WRONG_TYPE = 8,          /* a program file's type is not 1 or 3; a lone header's not 1 to 5 */
    TAPE_WRONG_ADDRESSES = 9,     /* end is not above start, or over 8,192 above it, or, in writing, not start plus the number of bytes */
    TAPE_WRONG_TAP_HEADER = 10,   /* TAP: under 20 bytes, wrong letters, reserved bytes not zero, or a wrong data count */
    TAPE_WRONG_TAP_VERSION = 11,  /* TAP: version above 1 */
    TAPE_CUT_LONG_FORM = 12,      /* TAP version 1: a zero byte with fewer than three bytes after it; place: its index in the data */
    TAPE_NO_TAP_FORM = 13,        /* a duration has no form in that version; place: the index of the first such */
    TAPE_WRONG_LEADER = 14        /* a leader under 64 or over 65,535 pulses */
};

/* Why a byte is bad: the first of its ten pairs of pulses that is wrong, or that none is wrong and the number of ones among the nine bits is
 * even. */
enum {
    TAPE_CAUSE_MARKER = 0, /* pair 0 is not the marker */
    TAPE_CAUSE_BIT = 1,    /* pair 1 to 8 is no bit; bit i, from the lowest, which is bit 0, has the cause TAPE_CAUSE_BIT + i */
    TAPE_CAUSE_PARITY = 9, /* pair 9, the parity bit's, is no bit */
    TAPE_CAUSE_ONES = 10,  /* all pairs are right, and the number of ones is even */
    TAPE_CAUSES = 11       /* how many there are */
};

enum {
    TAPE_MOST_BYTES = 8192,        /* payload of a block */
    TAPE_MOST_DECK_BYTES = 65534,  /* payload of a block that a deck reads */
    TAPE_HEADER_BYTES = 192,       /* a header, which is the payload of a file's first block */
    TAPE_NAME_BYTES = 187,         /* name in a header; 16 of them are shown */
    TAPE_LEAST_LEADER = 64,
    TAPE_MOST_LEADER = 65535,
    TAPE_MOST_DURATIONS = 1048576, /* durations that are written as one TAP file */
    TAPE_TAP_HEADER_BYTES = 20
};

/* How many pulses a block of n payload bytes takes, and a program file of `len` bytes. */
#define TAPE_BLOCK_PULSES(n, leader) ((size_t)(leader) + 40 * ((size_t)(n) + 10) + 122)
#define TAPE_FILE_PULSES(len, leader0, leader1) (TAPE_BLOCK_PULSES(TAPE_HEADER_BYTES, leader0) + TAPE_BLOCK_PULSES(len, leader1))

/* How many bytes the working buffer of a deck takes for n payload bytes. */
#define TAPE_WORK_BYTES(n) (2 * ((size_t)(n) + 10))

/* Whether a call refused, and why. `number` is one of the refusals above, or TAPE_ACCEPTED, and then `block` and `place` are 0 too. `block`
 * is 1 for a program file's data block, else 0. `place` is 0 where none is named above. With TAPE_LOST_BYTE, `cause_one` and `cause_two` say
 * why the byte is bad in copy one and in copy two; with every other number both are 0. */
typedef struct { uint32_t number, block; uint64_t place; uint32_t cause_one, cause_two; } tape_refusal;

/* What reading one byte answers. `good` is 1 for a good byte, with its value and cause 0; it is 0 for a bad one, with value 0 and the cause. */
typedef struct { uint32_t good, value, cause; } tape_byte;

/* What a writer answers: how many pulses or bytes were put. */
typedef struct { tape_refusal refusal; uint64_t count; } tape_put;

/* What the block reader answers: the payload bytes put, the place where the countdown starts, and the place after copy two. */
typedef struct { tape_refusal refusal; uint64_t n, start, end; } tape_block;

/* What the file reader answers: type, start and end address (one past the last byte), and `stop`, the place after the data block's copy
 * two. */
typedef struct { tape_refusal refusal; uint32_t type, start, end; uint64_t stop; } tape_file;

/* What the TAP reader answers: the version, and how many durations were put. */
typedef struct { tape_refusal refusal; uint32_t version; uint64_t count; } tape_tap;

/* A part of a buffer: where it begins, and how many bytes it has. */
typedef struct { tape_refusal refusal; uint64_t offset, length; } tape_span;

/* Totals of a report: strips, the pulses of each class on them, and the places of all blocks of their walks (payload bytes and checksums) taken
 * from copy one, taken from copy two, and lost. `causes` are the bytes of both copies at these places that are bad, by their causes. All are 0
 * to begin with. */
typedef struct { uint64_t strips, shorts, mediums, longs, noises, one, two, lost; uint64_t causes[11]; } tape_wear;

/* What the report answers: the totals with the strip added, or, where it refuses, the totals as they were lent. */
typedef struct { tape_refusal refusal; tape_wear totals; } tape_report;

/* Where a walk stands: the place from which the next start is looked for, and how many bytes the data block has that is tried there. With
 * length 0 a header is tried; with length 192 a data block of 192 bytes. A walk begins with {0, 0}. */
typedef struct { uint64_t from, length; } tape_walk;

/* What a step of a walk answers. `found` is 1 where a start was found, and a block tried there: its payload bytes and its start are told, its
 * places taken from copy one, taken from copy two, and lost, the bytes of both copies at these places that are bad, by their causes, and where
 * the walk goes on, also where the block is refused. `end` is the place after copy two of an accepted block, 0 for a refused one. */
typedef struct { tape_refusal refusal; uint32_t found; uint64_t n, start, end, one, two, lost; uint64_t causes[11]; tape_walk next; } tape_walked;

/* A deck: the state of a reader that takes the pulses of one block as they come. It is 32 bytes, plain numbers and no pointer. A program need
 * only hand it on and ask tape_deck_said. In a deck that came from tape_deck_begin, the fields that its phase does not use are 0. */
typedef struct {
    uint32_t n;        /* payload bytes */
    uint32_t taken;    /* pulses taken; none is after the one that ends copy two, or after the end is told */
    uint32_t start;    /* phases 1 to 4: the block's start; 0 where none was found */
    uint32_t place;    /* phases 1 and 3: the byte place that is being read, 0 to n + 9 */
    uint8_t phase;     /* 0 looking for the start, 1 in copy one, 2 between the copies, 3 in copy two, 4 answered */
    uint8_t heard;     /* phase 0: how many of a start's 36 pulses, 16 short ones and those of $89, end what was heard; phases 1 and 3: pulses of
                          this byte so far; phase 2: pulses since copy one */
    uint8_t answer;    /* phase 4: TAPE_ACCEPTED, or the refusal, 3 to 7 */
    uint8_t refused;   /* 1 or 2 where the last call was refused with that, else 0 */
    uint16_t bits;     /* phases 1 and 3: the bits of this byte so far, the latest worth 256, the one before it 128, and so on */
    uint8_t last;      /* phases 1 and 3: the class of its last pulse: 0 short, 1 medium, 2 long, 3 noise */
    uint8_t wrong;     /* phases 1 and 3: its first wrong pair, 10 for none so far */
    uint32_t lost;     /* phases 3 and 4: the first lost place, n + 1 for none so far; with the answers 3 and 4 this and the next four are 0 */
    uint8_t failed;    /* phases 3 and 4: the first countdown place that is wrong in both copies, 9 for none so far */
    uint8_t sum;       /* phases 3 and 4: the payload bytes so far, XORed, a lost one as 0 */
    uint8_t cause_one; /* phases 3 and 4: why the first lost byte is bad in copy one; 0 where none is lost */
    uint8_t cause_two; /* phases 3 and 4: why it is bad in copy two; 0 where none is lost */
} tape_deck;

/* What the last call said of a deck. `told` 0: nothing yet, and all other numbers are 0. 1: the answer: the block is accepted, with its payload
 * bytes, its start, and the place after copy two; or it is refused with 3 to 7, and these three are 0. 2: that call was refused with 1 or 2, and
 * these three are 0. Places are counted from the deck's first pulse, which is place 0. */
typedef struct { tape_refusal refusal; uint32_t told; uint64_t n, start, end; } tape_told;

/* The byte at a place: twenty pulses, in ten pairs. Past the last pulse there is only noise: a byte that is cut short is bad, and its cause is
 * the first pair that is wrong or not whole. Any place may be lent. Nothing is refused. */
tape_byte tape_read_byte(const uint32_t *pulses, size_t count, size_t at);

/* Writes a block: a leader of that many short pulses, and the n payload bytes with countdown and checksum, twice. `out` has `room` places
 * and needs TAPE_BLOCK_PULSES(n, leader). Refuses, in this order: 1, 14, 2. */
tape_put tape_write_block(const uint8_t *payload, size_t n, uint64_t leader, uint32_t *out, size_t room);

/* Reads a block of n payload bytes and puts these at the beginning of `out`, which needs n places. The block begins at the first start: the
 * smallest place with 16 short pulses just before it, all at or after `from`, and a good byte $89 there. Copy one's byte counts where it is
 * good, else copy two's. Refuses, in this order: 1, 2, 3, 4, 5, 6, 7. */
tape_block tape_read_block(const uint32_t *pulses, size_t count, size_t from, size_t n, uint8_t *out, size_t room);

/* Writes a program file: a header block and a data block, each with a leader of its own. The type is 1 or 3, `end` is `start` plus `len`,
 * the name has at most 187 bytes and is filled with spaces. `out` needs TAPE_FILE_PULSES(len, leader0, leader1) places. Refuses, in this
 * order: 1 for the name, 8, 9, 14 (for the header's leader with block 0, then for the data's with block 1), 2. */
tape_put tape_write_file(uint8_t type, uint16_t start, uint16_t end, const uint8_t *name, size_t name_len,
                         const uint8_t *bytes, size_t len, uint64_t leader0, uint64_t leader1, uint32_t *out, size_t room);

/* Reads a program file: a header block as tape_read_block reads one of 192 bytes from `from` on, then the data block from the header's end
 * on. Puts the header at the beginning of `header`, which needs 192 bytes, and the program at the beginning of `data`, which needs end minus
 * start, at most 8,192. Neither is touched unless both blocks are accepted. Refuses, in this order: 3 to 7 for the header (block 0), 8, 9, 2,
 * 3 to 7 for the data (block 1).
 *
 * A next file is read from `stop` on. All files on a tape, also those after a block that is refused, are found by a walk:
 *
 *     tape_walked b;
 *     for (tape_walk at = {0, 0}; (b = tape_walk_block(pulses, count, at)).found; at = b.next)
 *         if (b.next.length) file = tape_read_file(pulses, count, at.from, header, sizeof header, data, sizeof data);
 *
 * Damage. A strip as long as tape_write_file wrote it, read from place 0 with enough room, gives exactly the file that was written, if in
 * each block the leader, the 61 pulses after each copy and copy one's first byte keep their classes, and at each byte place one copy keeps
 * its classes and in the other at most three of the twenty pulses have another. */
tape_file tape_read_file(const uint32_t *pulses, size_t count, size_t from, uint8_t *header, size_t header_room,
                         uint8_t *data, size_t data_room);

/* Puts a header together at the beginning of `out`, which needs 192 bytes. The addresses may be any. Refuses, in this order: 1 for the name,
 * 8, 2. */
tape_put tape_pack_header(uint8_t type, uint16_t start, uint16_t end, const uint8_t *name, size_t name_len, uint8_t *out, size_t room);

/* Type and addresses of a header of 192 bytes; `stop` is 0. Refuses, in this order: 1, 8. */
tape_file tape_unpack_header(const uint8_t *header, size_t len);

/* Where the shown name stands in a header of 192 bytes: the first 16 bytes of the name, from offset 5 on, without the spaces at their end. A
 * name of spaces has length 0. Refuses, in this order: 1, 8. */
tape_span tape_shown_name(const uint8_t *header, size_t len);

/* Writes durations, in cycles, as a TAP file of version 0 or 1. Version 0 has a form for the multiples of 8 from 8 to 2,048, one byte each.
 * Version 1 has one for every duration up to 16,777,215: one byte for the multiples of 8 from 8 to 2,040, and for all others the long form,
 * a zero byte and the cycles in three bytes, low first. `out` needs 20 bytes and those of the forms, at most 20 + 4 * count. Refuses, in
 * this order: 1, 11, 13, 2. */
tape_put tape_write_tap(const uint32_t *durations, size_t count, uint8_t version, uint8_t *out, size_t room);

/* Reads a TAP file, and puts its durations, in cycles, at the beginning of `out`: at most one for each byte after the first 20. A byte b that
 * is not 0 is 8b cycles. A zero byte is 2,048 cycles in version 0; in version 1 it is followed by three bytes, low first, that are the
 * cycles. Refuses, in this order: 10 for length and letters, 11, 10 for reserved bytes and count, 12, 2. */
tape_tap tape_read_tap(const uint8_t *file, size_t len, uint32_t *out, size_t room);

/* One step of a walk over the blocks of a strip: finds the first start at or after `at.from`, as tape_read_block does, and tries the block
 * there, as a header or, with a length, as a data block of so many bytes. The walk goes on at `next`: at the end of an accepted block; one
 * pulse past the start of a refused one. What is tried there is a header, or, after an accepted header of type 1 or 3 whose end is 1 to 8,192
 * above its start, the data block of so many bytes. It ends where no start is found.
 *
 * Refuses, in this order: 1 for a length over 8,192, and 3, with `found` 0, `next` as it was lent, and all else 0; 4, 5, 6, 7 as
 * tape_read_block does, with `found` 1 and block 1 where a data block was tried. The three counts add up to n + 1, also after 5, 6 and 7; after
 * 4 they are 0, and so are the eleven counts of bad bytes. There a lost place counts twice, once by each cause; one taken from copy two by copy
 * one's cause; one taken from copy one by copy two's, where copy two's byte is bad. Countdown places do not count. Any place and any length may
 * be lent. */
tape_walked tape_walk_block(const uint32_t *pulses, size_t count, tape_walk at);

/* Adds a strip to totals: one strip, its pulses of each class, and the places and the bad bytes of all blocks of its walk from {0, 0} on.
 * Refuses, with 1 and the totals as they were lent, where these count 1,000 strips or more, where one of them is above 1,000,000,000,000, and
 * where there are over 1,048,576 pulses. */
tape_report tape_report_strip(tape_wear totals, const uint32_t *pulses, size_t count);

/* Straight from the deck: a block is read while its pulses come, and no strip is held. Its n is known beforehand and may be 1 to 65,534, here
 * alone. An interrupt hands over one pulse:
 *
 *     static tape_deck deck;
 *     static uint8_t work[TAPE_WORK_BYTES(N)], out[N];
 *
 *     deck = tape_deck_begin(N, sizeof work, sizeof out);                          // before the first pulse
 *     deck = tape_deck_pulse(deck, cycles, work, sizeof work, out, sizeof out);    // in the interrupt
 *     said = tape_deck_said(deck);                                                 // said.told is 1 once there is an answer
 *     deck = tape_deck_end(deck, work, sizeof work, out, sizeof out);              // when no more pulses come
 *
 * Answers. A block is read by the rules of tape_read_block, from the deck's first pulse on. However up to 4,294,967,295 pulses are cut into runs
 * and single ones, once the end is told the answer and the output are those of tape_read_block for all of them from 0 on, or, with n over 8,192,
 * those of the same rules. Acceptance, 5, 6 and 7 are told at the pulse that ends copy two; 3 and 4 only when the end is told. After an answer,
 * pulses or an end told change nothing and give it again, whatever buffers are lent. The next block takes a deck of its own, from the next pulse
 * on; of a run that went past copy two, the deck's `taken` tells which that is.
 *
 * What it takes. The state has 32 bytes, `work` 2(n + 10) or more, and `out` n or more; a pulse takes TAPE_STACK_DECK_PULSE bytes of stack and the
 * 32 that are passed. Both buffers are lent to every call until there is an answer, from any address. Between calls the caller leaves `work`
 * untouched; where it does not, the bytes are taken as they stand. `out` is never read; it is written only with an acceptance, n bytes. Each pulse
 * takes the same small amount of work, whatever n is, but for the one with which a block is accepted: it also puts these n bytes.
 *
 * Keeping it cheap. The state is copied in and returned, 32 bytes each way. Keep one static tape_deck, and assign it in the interrupt. Or let the
 * interrupt collect pulses in a small ring, and hand them over as runs from the main loop: a run copies the state once, and is much cheaper
 * per pulse. A deck takes one call at a time: where an interrupt assigns it, the main loop copies it with the interrupt held off.
 *
 * The working buffer. Place i of copy one, 0 to n + 9, stands at bytes 2i and 2i + 1: a good byte as its value and 0, a bad one as 0 and its cause
 * plus 1. Places 0 to 8 are the countdown; the payload and the checksum follow. Place 0, $89 and 0, is put at the pulse that settles the
 * start; every other place at its twentieth pulse in copy one. At payload and checksum places a good byte of copy two replaces a bad one, at
 * its twentieth pulse in copy two. Nothing else changes this buffer: a place that is not read yet holds what it held, a bad countdown place
 * stays so, a lost place keeps copy one's cause, a refusal changes nothing, and bytes past 2(n + 10) are never touched.
 *
 * Refusals 1 and 2. At the beginning: 1 for n, then 2 for either buffer. Such a deck gives that refusal to every later call, stays as it is, and
 * writes nothing. Later, before an answer: 1 where the pulses in all would pass 4,294,967,295 (the whole run is refused, also where an answer
 * would come inside it), then 2 where either buffer is too short, for a run of no pulses and for the end too. Nothing is written, the state
 * stays but for `refused`, and the next call that is not refused goes on as if this one had not been.
 *
 * Any state is taken, also one that a program made up. It is sound exactly when n is 1 to 65,534, phase at most 4, refused at most 2, and
 *   - in phase 0, heard is under 36 and not above taken;
 *   - in phases 1 and 3, place is under n + 10, heard under 20, and wrong at most 10;
 *   - in phase 2, heard is under 61;
 *   - in phase 4, refused is 0, and answer is 0 or 3 to 7.
 * Its other numbers may be anything. What tape_deck_begin accepts is sound, and so is what the calls make of a sound state. A state that is not
 * sound is returned as it is by every call, and nothing is written; what is said of it is told 2, with refusal 2 where `refused` is 2, else 1.
 * So it is with a static deck that is all 0 because nothing was begun. */

/* A deck for a block of n payload bytes, with buffers of so many bytes. Refuses, in this order: 1, 2. */
tape_deck tape_deck_begin(size_t n, size_t work_room, size_t room);

/* Hands over one pulse. Refuses, before an answer and in this order: 1, 2; at the pulse that ends copy two 5, 6, 7. */
tape_deck tape_deck_pulse(tape_deck deck, uint32_t pulse, uint8_t *work, size_t work_room, uint8_t *out, size_t room);

/* Hands over a run of pulses. Refuses the whole run, in this order: 1, 2; else it is the same as handing them over one by one, and an empty run
 * only sets `refused` to 0. */
tape_deck tape_deck_pulses(tape_deck deck, const uint32_t *pulses, size_t count, uint8_t *work, size_t work_room, uint8_t *out, size_t room);

/* Tells that no more pulses come. Refuses, before an answer and in this order: 2; 3 where no start was found; 4. */
tape_deck tape_deck_end(tape_deck deck, uint8_t *work, size_t work_room, uint8_t *out, size_t room);

/* What the last call said. It may be asked at any time. */
tape_told tape_deck_said(tape_deck deck);

/* Bytes of stack that each call needs, with its return address: read off the machine code of this archive and rounded up to a multiple of
 * 16. What memcpy and memset of the C library need is not counted, nor what the caller passes by value: the 152 bytes of the totals, and the 32
 * of a deck. */
enum {
    TAPE_STACK_READ_BYTE = 128,
    TAPE_STACK_WRITE_BLOCK = 320,
    TAPE_STACK_READ_BLOCK = 448,
    TAPE_STACK_WRITE_FILE = 752,
    TAPE_STACK_READ_FILE = 752,
    TAPE_STACK_PACK_HEADER = 32,
    TAPE_STACK_UNPACK_HEADER = 16,
    TAPE_STACK_SHOWN_NAME = 16,
    TAPE_STACK_WRITE_TAP = 96,
    TAPE_STACK_READ_TAP = 128,
    TAPE_STACK_WALK_BLOCK = 896,
    TAPE_STACK_REPORT_STRIP = 1120,
    TAPE_STACK_DECK_BEGIN = 48,
    TAPE_STACK_DECK_PULSE = 240,
    TAPE_STACK_DECK_PULSES = 240,
    TAPE_STACK_DECK_END = 80,
    TAPE_STACK_DECK_SAID = 16
};

#ifdef __cplusplus
}
#endif

#endif
