/* Every call of include/drucenal.h from C: a proxy and an assembler set up, called and asked. */
#include "drucenal.h"

#include <stdio.h>
#include <string.h>

static int failed = 0;

#define CHECK(what)                                             \
    do {                                                        \
        if (!(what)) {                                          \
            printf("line %d: not so: %s\n", __LINE__, #what);   \
            failed = 1;                                         \
        }                                                       \
    } while (0)

static uint64_t proxy[DRUCENAL_PROXY_WORDS];
static uint64_t assembler[DRUCENAL_ASSEMBLER_WORDS];
static uint8_t area[DRUCENAL_PLACES * 16];

#define PROXY proxy, DRUCENAL_PROXY_WORDS
#define ASSEMBLER assembler, DRUCENAL_ASSEMBLER_WORDS

static void numbers(void) {
    static const uint8_t two_words[8] = {1, 0, 0, 0, 2, 0, 0, 0};
    uint8_t bytes[8];
    int64_t number = 90;
    uint32_t fragment = 90;
    CHECK(drucenal_write_sequence_number(false, INT64_C(4294967298), bytes, 8) == 0);
    CHECK(memcmp(bytes, two_words, 8) == 0);
    CHECK(drucenal_read_sequence_number(false, bytes, 7, &number) == DRUCENAL_ENDS_EARLY && number == 90);
    CHECK(drucenal_read_sequence_number(false, bytes, 8, &number) == 0 && number == INT64_C(4294967298));
    CHECK(drucenal_read_sequence_number(true, bytes, 8, &number) == 0 && number == INT64_C(0x0100000002000000));
    CHECK(drucenal_write_sequence_number(true, 1, bytes, 7) == DRUCENAL_ROOM);
    CHECK(drucenal_write_fragment_number(true, 0x01020304, bytes, 4) == 0 && bytes[0] == 1 && bytes[3] == 4);
    CHECK(drucenal_read_fragment_number(false, bytes, 4, &fragment) == 0 && fragment == 0x04030201);
    CHECK(drucenal_read_fragment_number(false, bytes, 3, &fragment) == DRUCENAL_ENDS_EARLY);
}

static void sequence_sets(void) {
    static const int64_t list[2] = {1236, 1237};
    uint32_t words[8], count = 90;
    uint8_t bytes[DRUCENAL_LONGEST_SET];
    int64_t base = 90, members[DRUCENAL_MOST_MEMBERS];
    size_t length = 90;
    CHECK(drucenal_make_sequence_number_set(1234, list, 2, &base, &count, words) == 0);
    CHECK(base == 1234 && count == 4 && words[0] == 0x30000000 && words[7] == 0);
    CHECK(drucenal_measure_sequence_number_set(count, &length) == 0 && length == 16);
    CHECK(drucenal_measure_sequence_number_set(257, &length) == DRUCENAL_BIT_COUNT && length == 16);
    CHECK(drucenal_write_sequence_number_set(true, base, count, words, bytes, 15, &length) == DRUCENAL_ROOM);
    CHECK(drucenal_write_sequence_number_set(true, base, count, words, bytes, sizeof bytes, &length) == 0);
    base = 0;
    CHECK(drucenal_read_sequence_number_set(true, bytes, 15, &base, &count, words, &length) == DRUCENAL_ENDS_EARLY);
    CHECK(base == 0);
    CHECK(drucenal_read_sequence_number_set(true, bytes, 20, &base, &count, words, &length) == 0);
    CHECK(base == 1234 && count == 4 && length == 16);
    CHECK(drucenal_walk_sequence_number_set(true, base, count, words, members, 1, &length) == DRUCENAL_ROOM);
    CHECK(drucenal_walk_sequence_number_set(false, base, count, words, members, 2, &length) == 0);
    CHECK(length == 2 && members[0] == 1237 && members[1] == 1236);
}

static void fragment_sets(void) {
    static const uint32_t list[2] = {1, 3}, falling[2] = {3, 1};
    uint32_t words[8], base = 90, count = 90, members[2];
    uint8_t bytes[DRUCENAL_LONGEST_SET];
    size_t length = 90;
    CHECK(drucenal_make_fragment_number_set(1, falling, 2, &base, &count, words) == DRUCENAL_NOT_RISING);
    CHECK(base == 90 && count == 90);
    CHECK(drucenal_make_fragment_number_set(1, list, 2, &base, &count, words) == 0);
    CHECK(base == 1 && count == 3 && words[0] == 0xA0000000);
    CHECK(drucenal_measure_fragment_number_set(256, &length) == 0 && length == 40);
    CHECK(drucenal_write_fragment_number_set(false, base, count, words, bytes, sizeof bytes, &length) == 0);
    CHECK(length == 12 && bytes[0] == 1 && bytes[4] == 3 && bytes[11] == 0xA0);
    CHECK(drucenal_read_fragment_number_set(false, bytes, length, &base, &count, words, &length) == 0);
    CHECK(drucenal_walk_fragment_number_set(true, base, count, words, members, 2, &length) == 0);
    CHECK(length == 2 && members[0] == 1 && members[1] == 3);
    words[0] = 0x40000000;
    CHECK(drucenal_walk_fragment_number_set(true, UINT32_MAX, 2, words, members, 2, &length) == DRUCENAL_NUMBER);
}

static void the_proxy(void) {
    uint64_t before = 90, after = 90, time = 90;
    int64_t missing[4];
    size_t listed = 90;
    int32_t count = INT32_MAX;
    CHECK(drucenal_proxy_set_up(proxy, DRUCENAL_PROXY_WORDS - 1) == DRUCENAL_ROOM);
    CHECK(drucenal_proxy_set_up(PROXY) == 0);
    CHECK(drucenal_proxy_last_received(PROXY, &time) == 0 && time == 90);
    CHECK(drucenal_proxy_received_changes_add(PROXY, 0, 5, &before, &after) == DRUCENAL_NUMBER && before == 90);
    CHECK(drucenal_proxy_received_changes_add(PROXY, 1, 5, &before, &after) == 0 && before == 0 && after == 0);
    CHECK(drucenal_proxy_received_changes_add(PROXY, 3, 6, &before, &after) == 0);
    CHECK(drucenal_proxy_all_ackable_before(PROXY) == 2);
    CHECK(drucenal_proxy_should_ignore_change(PROXY, 3) && !drucenal_proxy_should_ignore_change(PROXY, 2));
    CHECK(drucenal_proxy_missing_seqnums(PROXY, 1, 4, missing, 1, &listed) == DRUCENAL_ROOM && listed == 90);
    CHECK(drucenal_proxy_missing_seqnums(PROXY, 1, 4, missing, 4, &listed) == 0);
    CHECK(listed == 2 && missing[0] == 2 && missing[1] == 4);
    CHECK(drucenal_proxy_change_status(PROXY, 2, &time) == 0 && time == 90);
    CHECK(drucenal_proxy_change_status(PROXY, 3, &time) == 2 && time == 6);
    CHECK(drucenal_proxy_set_irrelevant_change(PROXY, 5, &before, &after) == 0);
    CHECK(drucenal_proxy_change_status(PROXY, 5, &time) == 1);
    CHECK(drucenal_proxy_irrelevant_changes_range(PROXY, 3, 2, &before, &after) == DRUCENAL_RANGE);
    CHECK(drucenal_proxy_irrelevant_changes_up_to(PROXY, 3, &before, &after) == 0);
    CHECK(drucenal_proxy_all_ackable_before(PROXY) == 4);
    CHECK(drucenal_proxy_irrelevant_changes_range(PROXY, 5, 1005, &before, &after) == 0);
    CHECK(before == 4 && after == 749 && drucenal_proxy_all_ackable_before(PROXY) == 749);
    CHECK(drucenal_proxy_last_received(PROXY, &time) == 3 && time == 6);
    CHECK(drucenal_next_ack_nack_sequence_number(&count) == INT32_MAX && count == INT32_MIN);
}

static uint32_t fragment(uint64_t time, int64_t number, uint32_t start, const char *payload, uint32_t *what,
                         uint64_t *of, size_t *place, uint32_t *length) {
    return drucenal_assembler_new_datafrag(ASSEMBLER, area, sizeof area, time, number, 4, 6, start, 1,
                                           (const uint8_t *)payload, strlen(payload), what, of, place, length);
}

static void the_assembler(void) {
    uint32_t what = 90, length = 90, missing[2];
    uint64_t of = 90;
    size_t place = 90, listed = 90, start = 90;
    int64_t gone[2];
    CHECK(drucenal_assembler_set_up(ASSEMBLER, 0, true, 16) == DRUCENAL_SET_UP);
    CHECK(drucenal_assembler_set_up(ASSEMBLER, 4, true, 16) == 0);
    CHECK(fragment(7, 9, 3, "ef", &what, &of, &place, &length) == DRUCENAL_PAST_THE_END);
    CHECK(what == 90 && of == 90 && place == 90 && length == 90);
    CHECK(fragment(7, 9, 2, "ef", &what, &of, &place, &length) == 0 && what == 0);
    CHECK(drucenal_assembler_is_partially_received(ASSEMBLER, 9));
    CHECK(drucenal_assembler_missing_frags_for(ASSEMBLER, 9, missing, 0, &listed) == DRUCENAL_ROOM && listed == 90);
    CHECK(drucenal_assembler_missing_frags_for(ASSEMBLER, 9, missing, 2, &listed) == 0);
    CHECK(listed == 1 && missing[0] == 1);
    CHECK(fragment(8, 10, 1, "wxyz", &what, &of, &place, &length) == 0 && what == 0);
    CHECK(drucenal_assembler_in_assembly(ASSEMBLER) == 2);
    CHECK(fragment(9, 9, 1, "abcd", &what, &of, &place, &length) == 0);
    CHECK(what == 1 && of == 9 && place == 0 && length == 6);
    CHECK(drucenal_assembler_view(ASSEMBLER, area, sizeof area, place, length, &start) == 6 && start == 0);
    CHECK(memcmp(area, "abcdef", 6) == 0);
    CHECK(drucenal_assembler_view(ASSEMBLER, area, sizeof area, 1, 4, &start) == 4 && start == 16);
    CHECK(memcmp(area + start, "wxyz", 4) == 0);
    CHECK(drucenal_assembler_view(ASSEMBLER, area, sizeof area, DRUCENAL_PLACES, 1, &start) == 0 && start == 0);
    CHECK(drucenal_assembler_garbage_collect_before(ASSEMBLER, 9, gone, 2, &listed) == 0);
    CHECK(listed == 1 && gone[0] == 10);
    CHECK(!drucenal_assembler_is_partially_received(ASSEMBLER, 10));
    CHECK(drucenal_assembler_in_assembly(ASSEMBLER) == 0);
}

int main(void) {
    numbers();
    sequence_sets();
    fragment_sets();
    the_proxy();
    the_assembler();
    if (!failed) {
        printf("the header's calls answered as they should\n");
    }
    return failed;
}
