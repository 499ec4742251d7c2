/*
 * A receiver core for RTPS: what came, what is missing, what may be acknowledged. The calls of the static library that
 * `rust/library` leaves in target/staticlib/libdrucenal.a, for x86-64.
 *
 *     cc program.c -Iinclude -Ltarget/staticlib -ldrucenal
 *
 * A call that can be refused answers 0, or the number of its refusal (below), and a refused call writes nothing: record,
 * area, lists and the numbers behind pointers keep their values. An accepted call writes all its numbers, and of a lent
 * list or lent bytes the first entries alone.
 *
 * What a call asks of the caller:
 * - a pointer with a length leads to so many entries; no two things that a call is lent overlap;
 * - a record is what set-up or the last accepted call left, in exactly so many words as DRUCENAL_PROXY_WORDS or
 *   DRUCENAL_ASSEMBLER_WORDS say, and nobody else writes to it.
 * Nothing is allocated and nothing is kept between calls; a record may be copied as a whole.
 */
#ifndef DRUCENAL_H
#define DRUCENAL_H

#include <stdbool.h>
#include <stddef.h>
#include <stdint.h>

#ifdef __cplusplus
extern "C" {
#endif

/* Words of a writer proxy's record. */
#define DRUCENAL_PROXY_WORDS 775
/* Words of an assembler's record. */
#define DRUCENAL_ASSEMBLER_WORDS 906
/* Places of an assembler's area, and the largest place size in bytes. */
#define DRUCENAL_PLACES 129
#define DRUCENAL_LARGEST_PLACE 65536
/* The most that a set holds, and its longest form on the wire in bytes. */
#define DRUCENAL_MOST_MEMBERS 256
#define DRUCENAL_LONGEST_SET 44

/* Refusals. */
enum {
    DRUCENAL_ENDS_EARLY = 1,      /* bytes end early */
    DRUCENAL_BIT_COUNT = 2,       /* bit count above 256 */
    DRUCENAL_ROOM = 3,            /* lent output, or words for a record, shorter than the answer */
    DRUCENAL_NUMBER = 4,          /* number below 1 or 2^63 - 1; heartbeat end 2^63 - 1; member past its type */
    DRUCENAL_RANGE = 5,           /* range with its start above its end */
    DRUCENAL_FRAGMENT_SIZE = 6,   /* the fragment's size differs from the assembler's */
    DRUCENAL_SHORT_SAMPLE = 7,    /* opening: sample shorter than a fragment */
    DRUCENAL_LONG_SAMPLE = 8,     /* opening: sample longer than a place */
    DRUCENAL_MANY_FRAGMENTS = 9,  /* opening: more than 256 fragments */
    DRUCENAL_EMPTY_RUN = 10,      /* run of 0 fragments */
    DRUCENAL_START = 11,          /* run starts at 0 */
    DRUCENAL_PAST_THE_END = 12,   /* run past the sample's last fragment */
    DRUCENAL_AREA = 13,           /* area shorter than 129 places */
    DRUCENAL_SET_UP = 14,         /* set-up: fragment size 0, or place size 0 or above 65,536 */
    DRUCENAL_NOT_RISING = 15      /* list not strictly rising */
};

/*
 * Numbers on the wire. big: the most significant byte of a word first. A sequence number has eight bytes, the high word
 * first in either order; a fragment number has four.
 */

/* From the first bytes. Refusal 1. */
uint32_t drucenal_read_sequence_number(bool big, const uint8_t *bytes, size_t length, int64_t *number);
uint32_t drucenal_read_fragment_number(bool big, const uint8_t *bytes, size_t length, uint32_t *number);

/* To the first bytes. Refusal 3. */
uint32_t drucenal_write_sequence_number(bool big, int64_t number, uint8_t *out, size_t room);
uint32_t drucenal_write_fragment_number(bool big, uint32_t number, uint8_t *out, size_t room);

/*
 * Number sets: base, count of bits, eight words. Bit i, from the most significant bit of word 0, stands for base + i;
 * words past the count are not looked at.
 */

/* From the first bytes; taken: how many. Words past the count are zero, unused bits of the last word are kept.
 * Refusals 1 (base or count), 2, 1 (words). */
uint32_t drucenal_read_sequence_number_set(bool big, const uint8_t *bytes, size_t length, int64_t *base,
                                           uint32_t *count, uint32_t words[8], size_t *taken);
uint32_t drucenal_read_fragment_number_set(bool big, const uint8_t *bytes, size_t length, uint32_t *base,
                                           uint32_t *count, uint32_t words[8], size_t *taken);

/* To the first bytes; wrote: how many. Refusals 2, 3. */
uint32_t drucenal_write_sequence_number_set(bool big, int64_t base, uint32_t count, const uint32_t words[8],
                                            uint8_t *out, size_t room, size_t *wrote);
uint32_t drucenal_write_fragment_number_set(bool big, uint32_t base, uint32_t count, const uint32_t words[8],
                                            uint8_t *out, size_t room, size_t *wrote);

/* From a base and a strictly rising list, as far as 256 numbers reach; low: the base of the set made, which is the
 * smaller of base and the list's first number, or 1 where that is below 1 (the set is empty then); of an empty list
 * the base itself, whatever it is. Refusal 15. */
uint32_t drucenal_make_sequence_number_set(int64_t base, const int64_t *list, size_t length, int64_t *low,
                                           uint32_t *count, uint32_t words[8]);
uint32_t drucenal_make_fragment_number_set(uint32_t base, const uint32_t *list, size_t length, uint32_t *low,
                                           uint32_t *count, uint32_t words[8]);

/* The members, rising or falling; listed: how many. Refusals 2, 4, 3. */
uint32_t drucenal_walk_sequence_number_set(bool rising, int64_t base, uint32_t count, const uint32_t words[8],
                                           int64_t *out, size_t room, size_t *listed);
uint32_t drucenal_walk_fragment_number_set(bool rising, uint32_t base, uint32_t count, const uint32_t words[8],
                                           uint32_t *out, size_t room, size_t *listed);

/* How many bytes a set of so many bits has on the wire. Refusal 2. */
uint32_t drucenal_measure_sequence_number_set(uint32_t count, size_t *length);
uint32_t drucenal_measure_fragment_number_set(uint32_t count, size_t *length);

/*
 * The writer proxy: what came from one writer, what is missing, what may be acknowledged. A time is any 64 bits of the
 * caller's. A call that changes the record reports a forced step by the base before and after; both are 0 where there
 * was none. In a forced step more than 256 numbers would have been tracked and the lowest are given up: what did not come below
 * the new base will be acknowledged, and is no longer missing.
 */

/* A fresh record in the first DRUCENAL_PROXY_WORDS of these words: the ack base is 1. Refusal 3. */
uint32_t drucenal_proxy_set_up(uint64_t *words, size_t length);

/* DATA with this number came at this time. Refusal 4. */
uint32_t drucenal_proxy_received_changes_add(uint64_t *words, size_t length, int64_t number, uint64_t time,
                                             uint64_t *old_base, uint64_t *new_base);

/* One number is not available. Refusal 4. */
uint32_t drucenal_proxy_set_irrelevant_change(uint64_t *words, size_t length, int64_t number, uint64_t *old_base,
                                              uint64_t *new_base);

/* No number from `from` until before `until_before` is available. Refusal 5. */
uint32_t drucenal_proxy_irrelevant_changes_range(uint64_t *words, size_t length, int64_t from, int64_t until_before,
                                                 uint64_t *old_base, uint64_t *new_base);

/* No number below this one is available: the range from 0. Refusal 5. */
uint32_t drucenal_proxy_irrelevant_changes_up_to(uint64_t *words, size_t length, int64_t smallest, uint64_t *old_base,
                                                 uint64_t *new_base);

/* The ack base: everything below it may be acknowledged. Each number there came, is not available, or was given up by a
 * forced step, which the call that made it reported. */
uint64_t drucenal_proxy_all_ackable_before(const uint64_t *words, size_t length);

/* Whether the number is below the ack base or tracked: it came, is not available, or was given up. */
bool drucenal_proxy_should_ignore_change(const uint64_t *words, size_t length, int64_t number);

/* 0 untracked, 1 not available, 2 received: only then is its time written. */
uint32_t drucenal_proxy_change_status(const uint64_t *words, size_t length, int64_t number, uint64_t *time);

/* The highest number received, 0 for none; its time is written where there is one. */
uint64_t drucenal_proxy_last_received(const uint64_t *words, size_t length, uint64_t *time);

/* What is missing of a heartbeat's numbers, start through end, rising; listed: how many. Refusals 4, 3. */
uint32_t drucenal_proxy_missing_seqnums(const uint64_t *words, size_t length, int64_t start, int64_t end, int64_t *out,
                                        size_t room, size_t *listed);

/* The count for an acknack; the caller begins it at 0. The caller's own is moved on where it lies, from 2,147,483,647
 * to -2,147,483,648. */
int32_t drucenal_next_ack_nack_sequence_number(int32_t *count);

/*
 * The fragment assembler: samples of one writer put together in an area of DRUCENAL_PLACES places. Place i starts at
 * i * place_size. The same area is lent with each fragment; its bytes may hold anything at first.
 */

/* A fresh record in the first DRUCENAL_ASSEMBLER_WORDS of these words. reliable: with 129 samples in assembly the
 * highest number is dropped, else the lowest. Refusals 14, 3. */
uint32_t drucenal_assembler_set_up(uint64_t *words, size_t length, uint16_t fragment_size, bool reliable,
                                   uint32_t place_size);

/* Fragments `start` to `start + count - 1`, numbered from 1, of the sample with this number came at this time.
 * fragment_size and data_size are the message's: data_size, the sample's length, is looked at where the fragment opens
 * the sample. what: 0 the sample waits for more, 1 it is whole, 2 a sample was dropped. of: the number returned or
 * dropped. place, sample_length: where the whole sample lies, and how long it is.
 * Refusals 13, 4, 6, 7, 8, 9, 10, 11, 12. */
uint32_t drucenal_assembler_new_datafrag(uint64_t *words, size_t length, uint8_t *area, size_t area_length,
                                         uint64_t time, int64_t number, uint16_t fragment_size, uint32_t data_size,
                                         uint32_t start, uint16_t count, const uint8_t *payload,
                                         size_t payload_length, uint32_t *what, uint64_t *of, size_t *place,
                                         uint32_t *sample_length);

/* How many bytes of the area are shown for a place and a length: the length, or 0 where the part would pass the area's
 * end. start: where they begin in the area, place * place_size, or 0 where the part would pass the area's end; it is always written. A
 * returned sample stays there until the area is next lent for writing. */
size_t drucenal_assembler_view(const uint64_t *words, size_t length, const uint8_t *area, size_t area_length,
                               size_t place, size_t sample_length, size_t *start);

/* Drops every sample whose last fragment came before this time, and lists their numbers, rising; listed: how many, at
 * most 128. Refusal 3. */
uint32_t drucenal_assembler_garbage_collect_before(uint64_t *words, size_t length, uint64_t expire_before, int64_t *out,
                                                   size_t room, size_t *listed);

/* The missing fragments of a sample, numbered from 1, rising; listed: how many, 0 where it is not in assembly.
 * Refusal 3. */
uint32_t drucenal_assembler_missing_frags_for(const uint64_t *words, size_t length, int64_t number, uint32_t *out,
                                              size_t room, size_t *listed);

/* Whether the number is in assembly. */
bool drucenal_assembler_is_partially_received(const uint64_t *words, size_t length, int64_t number);

/* How many numbers are in assembly: at most 128. */
size_t drucenal_assembler_in_assembly(const uint64_t *words, size_t length);

#ifdef __cplusplus
}
#endif

#endif
