/* Each call of bilqarush.h, answered and refused. Prints each check that fails; the status is 0 if none does. */
#include "bilqarush.h"

#include <stdio.h>
#include <string.h>

#define UNWRITTEN 0xA5
#define ROOM 256

static int failures = 0;
static uint8_t out[ROOM];
static size_t written;

#define CHECK(holds)                                                    \
    do {                                                                \
        if (!(holds)) {                                                 \
            failures++;                                                 \
            printf("%s:%d: %s does not hold\n", __FILE__, __LINE__, #holds); \
        }                                                               \
    } while (0)

/* Bytes of a text, and how many. */
#define BYTES(text) (const uint8_t *)(text), sizeof(text) - 1

/* [a, m], (c, -, [a, a) and a range with padding set. */
#define A_TO_M "\x50\0\x01" "a" "\0\x01" "m"
#define AFTER_C "\x80\0\x01" "c"
#define EMPTY "\x60\0\x01" "a" "\0\x01" "a"
#define PADDED "\x01"

/* Document 01's example: run 7 with table 1 (first a, last c) and table 2 (first d, no last). */
#define ID(n) "\0\0\0\0\0\0\0\0\0\0\0\0\0\0\0" n
#define SIZES "\0\0\0\0\0\0\0\0\0\0\0\0\0\0\0\0\0\0\0\0\0\0\0\0"
#define TABLE_1 ID("\x01") SIZES "\x80\0\x01" "a" "\0\x01" "c"
#define TABLE_2 ID("\x02") SIZES "\0\0\x01" "d"
#define EXAMPLE "\x01\0\0\0\x07\0\x20" ID("\x01") TABLE_1 "\0" ID("\x02") TABLE_2 "\0"

static void fill(void) {
    memset(out, UNWRITTEN, ROOM);
    written = 77;
}

static bool unwritten(size_t from) {
    while (from < ROOM && out[from] == UNWRITTEN) {
        from++;
    }
    return from == ROOM;
}

/* Whether a call answered some bytes and wrote no others. */
static bool wrote(uint8_t stop, const uint8_t *bytes, size_t length) {
    return stop == 0 && written == length && memcmp(out, bytes, length) == 0 && unwritten(length);
}

/* Whether a call stopped and left the buffer and the slot as they were. */
static bool stopped(uint8_t stop, uint8_t expected) {
    return stop == expected && written == 77 && unwritten(0);
}

static void keys_and_bounds(void) {
    static const uint8_t long_key[BILQARUSH_MAX_KEY + 1];
    int8_t order = 77;
    CHECK(bilqarush_compare(BYTES("a"), BYTES("a\0"), &order) == 0 && order == -1);
    CHECK(bilqarush_cmp_bound(BILQARUSH_INCLUDED, BYTES("a"), BILQARUSH_EXCLUDED, BYTES("a"), false, &order) == 0);
    CHECK(order == 1);
    CHECK(bilqarush_cmp_bound(BILQARUSH_UNBOUNDED, BYTES(""), BILQARUSH_UNBOUNDED, BYTES(""), true, &order) == 0);
    CHECK(order == 0);
    order = 77;
    CHECK(bilqarush_cmp_bound(3, BYTES("a"), BILQARUSH_EXCLUDED, BYTES("a"), true, &order) == 2 && order == 77);
    CHECK(bilqarush_compare(long_key, sizeof long_key, BYTES(""), &order) == 3 && order == 77);
}

static void tests_of_ranges(void) {
    bool is = true;
    CHECK(bilqarush_non_empty(BYTES(EMPTY), &is) == 0 && !is);
    CHECK(bilqarush_contains(BYTES(A_TO_M), BYTES("m"), &is) == 0 && is);
    CHECK(bilqarush_contains(BYTES(EMPTY), BYTES("a"), &is) == 4 && is);
    CHECK(bilqarush_non_empty(BYTES(PADDED), &is) == 2 && is);
}

static void points(void) {
    fill();
    CHECK(wrote(bilqarush_as_point(BYTES("\x50\0\x01" "a" "\0\x01" "a"), out, ROOM, &written),
                BYTES("\x01\0\0\0\0\0\0\0\x03\0\0\0\0\0\0\0\x01")));
    fill();
    CHECK(stopped(bilqarush_as_point(BYTES(EMPTY), out, ROOM, &written), 4));
}

static void joined_ranges(void) {
    fill();
    CHECK(wrote(bilqarush_intersect(BYTES(A_TO_M), BYTES(AFTER_C), out, BILQARUSH_JOINED_LEN, &written),
                BYTES("\x01\x02\x02\0\0\0\0\0\0\0\x03\0\0\0\0\0\0\0\x01"
                      "\x01\x01\0\0\0\0\0\0\0\x06\0\0\0\0\0\0\0\x01")));
    fill();
    CHECK(stopped(bilqarush_intersect(BYTES(A_TO_M), BYTES(AFTER_C), out, BILQARUSH_JOINED_LEN - 1, &written), 16));
    CHECK(bilqarush_union(BYTES(A_TO_M), BYTES(AFTER_C), out, ROOM, &written) == 0 && written == BILQARUSH_JOINED_LEN);
    CHECK(out[1] == BILQARUSH_INCLUDED && out[2] == BILQARUSH_FIRST && out[10] == 3);
    CHECK(out[19] == BILQARUSH_UNBOUNDED && out[20] == BILQARUSH_SECOND && unwritten(37));
    fill();
    CHECK(stopped(bilqarush_union(BYTES(A_TO_M), BYTES(PADDED), out, ROOM, &written), 2));
}

static void keys_of_an_intersection(void) {
    fill();
    CHECK(wrote(bilqarush_intersect_start_key(BYTES(A_TO_M), BYTES(AFTER_C), out, ROOM, &written), BYTES("c")));
    fill();
    CHECK(wrote(bilqarush_intersect_end_key(BYTES(A_TO_M), BYTES(AFTER_C), out, ROOM, &written), BYTES("m")));
    fill();
    CHECK(wrote(bilqarush_intersect_end_key(BYTES(AFTER_C), BYTES(AFTER_C), out, ROOM, &written), BYTES("")));
    fill();
    CHECK(stopped(bilqarush_intersect_start_key(BYTES(PADDED), BYTES(A_TO_M), out, ROOM, &written), 2));
    CHECK(stopped(bilqarush_intersect_end_key(BYTES(A_TO_M), BYTES(PADDED), out, ROOM, &written), 2));
    fill();
    CHECK(stopped(bilqarush_intersect_start_key(BYTES(A_TO_M), BYTES(AFTER_C), out, 0, &written), 16));
}

static void prefixes(void) {
    fill();
    CHECK(wrote(bilqarush_from_prefix(BYTES("a\xFF"), out, ROOM, &written), BYTES("\x60\0\x02" "a\xFF\0\x01" "b")));
    fill();
    CHECK(stopped(bilqarush_from_prefix(BYTES("a\xFF"), out, 7, &written), 16));
    CHECK(wrote(bilqarush_from_prefix_and_subrange(BYTES("x"), BYTES(AFTER_C), out, ROOM, &written),
                BYTES("\xA0\0\x02" "xc" "\0\x01" "y")));
    fill();
    CHECK(stopped(bilqarush_from_prefix_and_subrange(BYTES("x"), BYTES(EMPTY), out, ROOM, &written), 4));
}

static void images(void) {
    CHECK(bilqarush_check_image(BYTES(EXAMPLE)) == 0);
    CHECK(bilqarush_check_image(BYTES(EXAMPLE "\0")) == 1);
    fill();
    CHECK(wrote(bilqarush_compacted_effective_range(BYTES(EXAMPLE), 0, 0, out, BILQARUSH_VIEW_RANGE_LEN, &written),
                BYTES("\x01\0\0\0\0\0\0\0\x42\0\0\0\0\0\0\0\x01" "\x01\0\0\0\0\0\0\0\x45\0\0\0\0\0\0\0\x01")));
    fill();
    CHECK(stopped(bilqarush_compacted_effective_range(BYTES(EXAMPLE), 0, 2, out, ROOM, &written), 9));
    CHECK(wrote(bilqarush_list(BYTES(EXAMPLE), out, ROOM, &written),
                BYTES("run view table start end\n"
                      "7 0 00000000000000000000000000000001 [61 63]\n"
                      "7 1 00000000000000000000000000000002 [64 -\n")));
    fill();
    CHECK(stopped(bilqarush_list(BYTES(EXAMPLE), out, 112, &written), 16));
}

/* From run 7 to itself; one part from b to c is unfinished, with an output that holds b alone, so nothing is durable. Then it
 * is completed: a is left of table 1, and the output is shown. */
#define JOB(flag) "\0\0\0\x07\x01\0\0\0\x07\x01" "\x60\0\x01" "b" "\0\x01" "c" flag "\x01" OUTPUT
#define OUTPUT ID("\x03") SIZES "\x80\0\x01" "b" "\0\x01" "b"
#define CUT(id, range) "\0\0\0\0\0\0" id TABLE_1 "\x80" range
#define COMMITTED                                                                                                  \
    "\x01\0\0\0\x07\0\x40" CUT("0123456789", "\x60\0\x01" "a" "\0\x01" "b") ID("\x03") OUTPUT "\0"                   \
    CUT("abcdefghij", "\x50\0\x01" "c" "\0\x01" "c") ID("\x02") TABLE_2 "\0"

static void commits(void) {
    fill();
    CHECK(stopped(bilqarush_commit(BYTES(JOB("\x80")), BYTES(EXAMPLE), BYTES(""), out, ROOM, &written), 1));
    CHECK(wrote(bilqarush_commit(BYTES(EXAMPLE), BYTES(JOB("\0")), BYTES(""), out, ROOM, &written), BYTES(EXAMPLE)));
    fill();
    CHECK(stopped(bilqarush_commit(BYTES(EXAMPLE), BYTES(JOB("\x80")), BYTES("0123456789"), out, ROOM, &written), 14));
    CHECK(stopped(bilqarush_commit(BYTES(EXAMPLE), BYTES(JOB("\x80")), BYTES("0123456789abcdefghij"), out, ROOM, &written),
                  16));
}

static void a_commit_that_cuts(void) {
    static uint8_t new_image[BILQARUSH_IMAGE_LEN];
    CHECK(bilqarush_commit(BYTES(EXAMPLE), BYTES(JOB("\x80")), BYTES("0123456789abcdefghij"), new_image,
                           sizeof new_image, &written) == 0);
    CHECK(written == sizeof(COMMITTED) - 1 && memcmp(new_image, COMMITTED, written) == 0);
    CHECK(bilqarush_check_image(new_image, written) == 0);
}

/* First keys a, b, b and d; none; and b, a. */
#define BLOCK(first) "\0\0\0\0\0\0\0\0\0\x01" first
#define INDEX "\0\x04" BLOCK("a") BLOCK("b") BLOCK("b") BLOCK("d")
#define NO_BLOCKS "\0\0"
#define DESCENDS "\0\x02" BLOCK("b") BLOCK("a")

static void lookups_of_keys(void) {
    size_t count = 77, partition = 77;
    bool found = true;
    CHECK(bilqarush_partition_point(BYTES(INDEX), false, BYTES("b"), &count) == 0 && count == 1);
    CHECK(bilqarush_partition_point(BYTES(INDEX), true, BYTES("b"), &count) == 0 && count == 3);
    CHECK(bilqarush_partition_point(BYTES(DESCENDS), true, BYTES("b"), &count) == 6 && count == 3);
    CHECK(bilqarush_first_partition_including_key(BYTES(NO_BLOCKS), BYTES("b"), &found, &partition) == 0 && !found);
    CHECK(bilqarush_last_partition_including_key(BYTES(INDEX), BYTES("A"), &found, &partition) == 0 && !found);
    CHECK(partition == 77);
    CHECK(bilqarush_first_partition_including_key(BYTES(INDEX), BYTES("b"), &found, &partition) == 0 && found);
    CHECK(partition == 0);
    CHECK(bilqarush_last_partition_including_key(BYTES(INDEX), BYTES("b"), &found, &partition) == 0 && found);
    CHECK(partition == 2);
    CHECK(bilqarush_last_partition_including_key(BYTES(""), BYTES("b"), &found, &partition) == 1 && found);
    CHECK(bilqarush_first_partition_including_or_after_key(BYTES(INDEX), BYTES("e"), &partition) == 0 && partition == 3);
    CHECK(bilqarush_first_partition_including_or_after_key(BYTES("\0"), BYTES("e"), &partition) == 1 && partition == 3);
}

static void coverings(void) {
    size_t start = 77, end = 78;
    CHECK(bilqarush_partitions_covering_range(BYTES(INDEX), BYTES(EMPTY), &start, &end) == 4);
    CHECK(bilqarush_table_idx_covering_range(BYTES(EXAMPLE), 1, BYTES(A_TO_M), &start, &end) == 9);
    CHECK(start == 77 && end == 78);
    CHECK(bilqarush_partitions_covering_range(BYTES(INDEX), BYTES(AFTER_C), &start, &end) == 0);
    CHECK(start == 2 && end == 4);
    CHECK(bilqarush_table_idx_covering_range(BYTES(EXAMPLE), 0, BYTES(A_TO_M), &start, &end) == 0);
    CHECK(start == 0 && end == 2);
}

static void tests_of_views(void) {
    bool is = false;
    CHECK(bilqarush_overlaps_range(BYTES(EXAMPLE), 0, BYTES(AFTER_C), &is) == 0 && is);
    CHECK(bilqarush_overlaps_range(BYTES(EXAMPLE), 0, BYTES(EMPTY), &is) == 4 && is);
    CHECK(bilqarush_intersects_range(BYTES(EXAMPLE), 0, 0, BILQARUSH_EXCLUDED, BYTES("d"), BYTES(AFTER_C), &is) == 0 && is);
    CHECK(bilqarush_intersects_range(BYTES(EXAMPLE), 0, 0, BILQARUSH_INCLUDED, BYTES("c"), BYTES(AFTER_C), &is) == 0 && !is);
    CHECK(bilqarush_intersects_range(BYTES(EXAMPLE), 0, 0, 3, BYTES("c"), BYTES(PADDED), &is) == 2 && !is);
    CHECK(bilqarush_intersects_range(BYTES(EXAMPLE), 0, 0, BILQARUSH_UNBOUNDED, BYTES("c"), BYTES(PADDED), &is) == 1);
}

static void ranges_of_views(void) {
    fill();
    CHECK(wrote(bilqarush_compacted_intersection(BYTES(EXAMPLE), 0, 0, BYTES(A_TO_M), out, BILQARUSH_JOINED_LEN, &written),
                BYTES("\x01\x01\x02\0\0\0\0\0\0\0\x03\0\0\0\0\0\0\0\x01"
                      "\x02\x01\0\0\0\0\0\0\0\x82\0\0\0\0\0\0\0\x01")));
    fill();
    CHECK(wrote(bilqarush_calculate_view_range(BYTES(EXAMPLE), 0, 0, BYTES(A_TO_M), out, ROOM, &written),
                BYTES("\x01\x01\x01\0\0\0\0\0\0\0\x42\0\0\0\0\0\0\0\x01"
                      "\x01\x01\0\0\0\0\0\0\0\x45\0\0\0\0\0\0\0\x01")));
    fill();
    CHECK(wrote(bilqarush_calculate_view_range(BYTES(EXAMPLE), 0, 0, BYTES(AFTER_C), out, 1, &written), BYTES("\0")));
    fill();
    CHECK(stopped(bilqarush_compacted_intersection(BYTES(EXAMPLE), 0, 2, BYTES(A_TO_M), out, ROOM, &written), 9));
    CHECK(stopped(bilqarush_compacted_intersection(BYTES(EXAMPLE), 0, 0, BYTES(A_TO_M), out, 36, &written), 16));
    CHECK(stopped(bilqarush_calculate_view_range(BYTES(EXAMPLE), 0, 0, BYTES(PADDED), out, ROOM, &written), 2));
}

/* Run 7 with one view, of a table from 00 to 80 with a raw size of 5: from 00 up to, without, 40 is visible; all is. */
#define FROM_00_TO_80                                                                                              \
    "\x01\0\0\0\x07\0\x10" ID("\x01") ID("\x01") "\0\0\0\0\0\0\0\x03\0\0\0\0\0\0\0\x02\0\0\0\0\0\0\0\0"               \
    "\x80\0\x01\0\0\x01\x80"
#define HALF_SHOWN FROM_00_TO_80 "\x80\x60\0\x01\0\0\x01\x40"
#define ALL_SHOWN FROM_00_TO_80 "\0"

static void fractions(void) {
    bool part = true;
    double fraction = 77;
    CHECK(bilqarush_visible_fraction(BYTES(""), 0, 0, &part, &fraction) == 1 && part && fraction == 77);
    CHECK(bilqarush_visible_fraction(BYTES(ALL_SHOWN), 0, 0, &part, &fraction) == 0 && !part && fraction == 77);
    CHECK(bilqarush_visible_fraction(BYTES(HALF_SHOWN), 0, 1, &part, &fraction) == 9 && !part && fraction == 77);
    CHECK(bilqarush_visible_fraction(BYTES(HALF_SHOWN), 0, 0, &part, &fraction) == 0 && part && fraction == 0.5);
}

static void visible_sizes(void) {
    uint64_t size = 77;
    CHECK(bilqarush_estimate_visible_size(BYTES(""), 0, 0, &size) == 1 && size == 77);
    CHECK(bilqarush_estimate_visible_size(BYTES(HALF_SHOWN), 1, 0, &size) == 9 && size == 77);
    CHECK(bilqarush_estimate_run_visible_size(BYTES(HALF_SHOWN), 1, &size) == 9 && size == 77);
    CHECK(bilqarush_estimate_visible_size(BYTES(HALF_SHOWN), 0, 0, &size) == 0 && size == 3);
    CHECK(bilqarush_estimate_visible_size(BYTES(ALL_SHOWN), 0, 0, &size) == 0 && size == 5);
    CHECK(bilqarush_estimate_run_visible_size(BYTES(HALF_SHOWN), 0, &size) == 0 && size == 3);
}

/* Blocks from a, b and c at 0, 10 and 30; the anchors a and b of 10 bytes each, and such that total 2^64. */
#define PLACED(offset, first) "\0\0\0\0\0\0\0" offset "\0\x01" first
#define THREE_BLOCKS "\0\x03" PLACED("\0", "a") PLACED("\x0A", "b") PLACED("\x1E", "c")
#define ANCHOR(key, bytes) "\0\x01" key "\0\0\0\0\0\0\0" bytes
#define TWO_ANCHORS "\0\x02" ANCHOR("a", "\x0A") ANCHOR("b", "\x0A")
#define OVER "\0\x02" "\0\x01" "a" "\xFF\xFF\xFF\xFF\xFF\xFF\xFF\xFF" ANCHOR("b", "\x01")
#define EVERYTHING "\0"

static void samples(void) {
    fill();
    CHECK(wrote(bilqarush_sample_anchors(3, 50, BYTES(THREE_BLOCKS), BYTES(AFTER_C), out, ROOM, &written), BYTES("\0\0")));
    fill();
    CHECK(wrote(bilqarush_sample_anchors(2, 50, BYTES(THREE_BLOCKS), BYTES(EVERYTHING), out, 24, &written),
                BYTES("\0\x02" ANCHOR("a", "\x1E") ANCHOR("c", "\x14"))));
    fill();
    CHECK(stopped(bilqarush_sample_anchors(2, 50, BYTES(THREE_BLOCKS), BYTES(EVERYTHING), out, 23, &written), 16));
    CHECK(stopped(bilqarush_sample_anchors(2, 50, BYTES(THREE_BLOCKS), BYTES(PADDED), out, ROOM, &written), 2));
    CHECK(stopped(bilqarush_sample_anchors(BILQARUSH_MAX_ANCHORS + 1, 50, BYTES(""), BYTES(""), out, ROOM, &written), 3));
    CHECK(stopped(bilqarush_sample_anchors(2, 50, BYTES(DESCENDS), BYTES(EVERYTHING), out, ROOM, &written), 6));
}

static void plans(void) {
    fill();
    CHECK(wrote(bilqarush_select_boundaries(2, 0, BYTES(TWO_ANCHORS), out, 9, &written),
                BYTES("\x02\x20\0\x01" "b" "\x40\0\x01" "b")));
    fill();
    CHECK(wrote(bilqarush_select_boundaries(2, 20, BYTES(TWO_ANCHORS), out, ROOM, &written), BYTES("\x01\0")));
    fill();
    CHECK(stopped(bilqarush_select_boundaries(2, 0, BYTES(TWO_ANCHORS), out, 8, &written), 16));
    CHECK(stopped(bilqarush_select_boundaries(1, 0, BYTES(OVER), out, ROOM, &written), 7));
    CHECK(stopped(bilqarush_select_boundaries(BILQARUSH_MAX_PARTS + 1, 0, BYTES(""), out, ROOM, &written), 3));
}

/* The data of the example's tables end at 0, so that c has no bytes; table 2 has no blocks. */
static void plans_of_images(void) {
    static uint8_t room[BILQARUSH_PLAN_LEN];
    fill();
    CHECK(wrote(bilqarush_plan_subcompaction_ranges(2, BYTES(EXAMPLE), BYTES(THREE_BLOCKS NO_BLOCKS), out, ROOM, &written),
                BYTES("\x02\x20\0\x01" "c" "\x40\0\x01" "c")));
    fill();
    CHECK(wrote(bilqarush_plan_subcompaction_ranges(1, BYTES(EXAMPLE), BYTES(THREE_BLOCKS NO_BLOCKS), out, 2, &written),
                BYTES("\x01\0")));
    fill();
    CHECK(stopped(bilqarush_plan_subcompaction_ranges(1, BYTES(EXAMPLE), BYTES(THREE_BLOCKS), out, ROOM, &written), 1));
    CHECK(stopped(bilqarush_plan_subcompaction_ranges(1, BYTES(EXAMPLE), BYTES(NO_BLOCKS DESCENDS), out, ROOM, &written), 6));
    CHECK(stopped(bilqarush_plan_subcompaction_ranges(65, BYTES(""), BYTES(""), out, ROOM, &written), 3));
    CHECK(bilqarush_plan_subcompaction_ranges(64, BYTES("\0"), BYTES(""), room, sizeof room, &written) == 0);
    CHECK(written == 2 && room[0] == 1 && room[1] == 0);
}

/* As JOB and unfinished, with an output from b to bb; and a job without sources. */
#define UNFINISHED "\0\0\0\x07\x01\0\0\0\x07\x01" "\x60\0\x01" "b" "\0\x01" "c" "\0\x01" LONGER
#define LONGER ID("\x03") SIZES "\x80\0\x01" "b" "\0\x02" "bb"
#define NO_SOURCE "\0\0\0\x07\0\0"

static void durable_intervals(void) {
    fill();
    CHECK(wrote(bilqarush_from_compaction(BYTES(JOB("\0")), out, 1, &written), BYTES("\0")));
    fill();
    CHECK(wrote(bilqarush_from_compaction(BYTES(JOB("\x80")), out, 8, &written), BYTES("\x01\x60\0\x01" "b" "\0\x01" "c")));
    fill();
    CHECK(wrote(bilqarush_from_compaction(BYTES(UNFINISHED), out, ROOM, &written), BYTES("\x01\x60\0\x01" "b" "\0\x02" "bb")));
    fill();
    CHECK(stopped(bilqarush_from_compaction(BYTES(UNFINISHED), out, 8, &written), 16));
    CHECK(stopped(bilqarush_from_compaction(BYTES(UNFINISHED "\0"), out, ROOM, &written), 1));
    CHECK(stopped(bilqarush_from_compaction(BYTES(NO_SOURCE), out, ROOM, &written), 8));
}

/* [c, f); A_TO_M ends included. */
#define C_TO_F "\x60\0\x01" "c" "\0\x01" "f"

static void what_is_left(void) {
    fill();
    CHECK(wrote(bilqarush_subtract_from(BYTES(C_TO_F), BYTES(A_TO_M), out, 15, &written),
                BYTES("\x02\x60\0\x01" "a" "\0\x01" "c" "\x50\0\x01" "f" "\0\x01" "m")));
    fill();
    CHECK(wrote(bilqarush_subtract_from(BYTES(C_TO_F), BYTES(AFTER_C), out, ROOM, &written), BYTES("\x01\x40\0\x01" "f")));
    fill();
    CHECK(wrote(bilqarush_subtract_from(BYTES(EVERYTHING), BYTES(A_TO_M), out, 1, &written), BYTES("\0")));
    fill();
    CHECK(stopped(bilqarush_subtract_from(BYTES(C_TO_F), BYTES(A_TO_M), out, 14, &written), 16));
    CHECK(stopped(bilqarush_subtract_from(BYTES(A_TO_M), BYTES(C_TO_F), out, ROOM, &written), 10));
    CHECK(stopped(bilqarush_subtract_from(BYTES(AFTER_C), BYTES(EMPTY), out, ROOM, &written), 4));
    CHECK(stopped(bilqarush_subtract_from(BYTES(EMPTY), BYTES(PADDED), out, ROOM, &written), 2));
}

/* A slice of no bytes may be NULL. Each slice of each call is, where it comes furthest: an empty key, prefix, id supply or row
 * of indexes is answered, other bytes end inside their first field, and an empty buffer is too short. */
#define NONE NULL, 0

static void no_bytes_of_keys(void) {
    int8_t order = 77;
    CHECK(bilqarush_compare(NONE, BYTES("a"), &order) == 0 && order == -1);
    CHECK(bilqarush_compare(BYTES("a"), NONE, &order) == 0 && order == 1);
    CHECK(bilqarush_compare(NONE, NONE, &order) == 0 && order == 0);
    CHECK(bilqarush_cmp_bound(BILQARUSH_INCLUDED, NONE, BILQARUSH_EXCLUDED, BYTES("a"), true, &order) == 0 && order == -1);
    CHECK(bilqarush_cmp_bound(BILQARUSH_INCLUDED, BYTES("a"), BILQARUSH_EXCLUDED, NONE, true, &order) == 0 && order == 1);
    CHECK(bilqarush_cmp_bound(BILQARUSH_UNBOUNDED, NONE, BILQARUSH_UNBOUNDED, NONE, false, &order) == 0 && order == 0);
}

static void no_bytes_of_ranges(void) {
    bool is = false;
    CHECK(bilqarush_non_empty(NONE, &is) == 1);
    CHECK(bilqarush_contains(NONE, BYTES("a"), &is) == 1 && !is);
    CHECK(bilqarush_contains(BYTES(EVERYTHING), NONE, &is) == 0 && is);
    fill();
    CHECK(stopped(bilqarush_as_point(NONE, out, ROOM, &written), 1));
    CHECK(stopped(bilqarush_as_point(BYTES(A_TO_M), NONE, &written), 16));
    CHECK(stopped(bilqarush_intersect(NONE, BYTES(A_TO_M), out, ROOM, &written), 1));
    CHECK(stopped(bilqarush_intersect(BYTES(A_TO_M), NONE, out, ROOM, &written), 1));
    CHECK(stopped(bilqarush_intersect(BYTES(A_TO_M), BYTES(AFTER_C), NONE, &written), 16));
    CHECK(stopped(bilqarush_intersect_start_key(NONE, BYTES(A_TO_M), out, ROOM, &written), 1));
    CHECK(stopped(bilqarush_intersect_start_key(BYTES(A_TO_M), NONE, out, ROOM, &written), 1));
    CHECK(stopped(bilqarush_intersect_start_key(BYTES(A_TO_M), BYTES(AFTER_C), NONE, &written), 16));
    CHECK(stopped(bilqarush_intersect_end_key(NONE, BYTES(A_TO_M), out, ROOM, &written), 1));
    CHECK(stopped(bilqarush_intersect_end_key(BYTES(A_TO_M), NONE, out, ROOM, &written), 1));
    CHECK(stopped(bilqarush_intersect_end_key(BYTES(A_TO_M), BYTES(AFTER_C), NONE, &written), 16));
    CHECK(wrote(bilqarush_intersect_end_key(BYTES(AFTER_C), BYTES(AFTER_C), NONE, &written), BYTES("")));
    fill();
    CHECK(stopped(bilqarush_union(NONE, BYTES(A_TO_M), out, ROOM, &written), 1));
    CHECK(stopped(bilqarush_union(BYTES(A_TO_M), NONE, out, ROOM, &written), 1));
    CHECK(stopped(bilqarush_union(BYTES(A_TO_M), BYTES(AFTER_C), NONE, &written), 16));
    CHECK(stopped(bilqarush_subtract_from(NONE, BYTES(A_TO_M), out, ROOM, &written), 1));
    CHECK(stopped(bilqarush_subtract_from(BYTES(C_TO_F), NONE, out, ROOM, &written), 1));
    CHECK(stopped(bilqarush_subtract_from(BYTES(C_TO_F), BYTES(A_TO_M), NONE, &written), 16));
}

static void no_bytes_of_prefixes(void) {
    fill();
    CHECK(stopped(bilqarush_from_prefix(NONE, NONE, &written), 16));
    CHECK(wrote(bilqarush_from_prefix(NONE, out, ROOM, &written), BYTES(EVERYTHING)));
    fill();
    CHECK(stopped(bilqarush_from_prefix_and_subrange(BYTES("x"), NONE, out, ROOM, &written), 1));
    CHECK(stopped(bilqarush_from_prefix_and_subrange(BYTES("x"), BYTES(AFTER_C), NONE, &written), 16));
    CHECK(wrote(bilqarush_from_prefix_and_subrange(NONE, BYTES(AFTER_C), out, ROOM, &written), BYTES(AFTER_C)));
}

static void no_bytes_of_images(void) {
    bool part = true;
    double fraction = 77;
    uint64_t size = 77;
    CHECK(bilqarush_check_image(NONE) == 1);
    CHECK(bilqarush_visible_fraction(NONE, 0, 0, &part, &fraction) == 1 && part && fraction == 77);
    CHECK(bilqarush_estimate_visible_size(NONE, 0, 0, &size) == 1 && size == 77);
    CHECK(bilqarush_estimate_run_visible_size(NONE, 0, &size) == 1 && size == 77);
    fill();
    CHECK(stopped(bilqarush_compacted_effective_range(NONE, 0, 0, out, ROOM, &written), 1));
    CHECK(stopped(bilqarush_compacted_effective_range(BYTES(EXAMPLE), 0, 0, NONE, &written), 16));
    CHECK(stopped(bilqarush_list(NONE, out, ROOM, &written), 1));
    CHECK(stopped(bilqarush_list(BYTES(EXAMPLE), NONE, &written), 16));
}

static void no_bytes_of_commits(void) {
    fill();
    CHECK(stopped(bilqarush_commit(NONE, BYTES(JOB("\0")), BYTES(""), out, ROOM, &written), 1));
    CHECK(stopped(bilqarush_commit(BYTES(EXAMPLE), NONE, BYTES(""), out, ROOM, &written), 1));
    CHECK(stopped(bilqarush_commit(BYTES(EXAMPLE), BYTES(JOB("\x80")), NONE, out, ROOM, &written), 14));
    CHECK(stopped(bilqarush_commit(BYTES(EXAMPLE), BYTES(JOB("\0")), NONE, NONE, &written), 16));
    CHECK(stopped(bilqarush_from_compaction(NONE, out, ROOM, &written), 1));
    CHECK(stopped(bilqarush_from_compaction(BYTES(UNFINISHED), NONE, &written), 16));
    CHECK(wrote(bilqarush_commit(BYTES(EXAMPLE), BYTES(JOB("\0")), NONE, out, ROOM, &written), BYTES(EXAMPLE)));
}

static void no_bytes_of_indexes(void) {
    size_t count = 77, partition = 77, start = 77, end = 78;
    bool found = true;
    CHECK(bilqarush_partition_point(NONE, false, BYTES("b"), &count) == 1 && count == 77);
    CHECK(bilqarush_partition_point(BYTES(INDEX), false, NONE, &count) == 0 && count == 0);
    CHECK(bilqarush_first_partition_including_key(NONE, BYTES("b"), &found, &partition) == 1 && found);
    CHECK(bilqarush_first_partition_including_key(BYTES(INDEX), NONE, &found, &partition) == 0 && !found);
    CHECK(bilqarush_last_partition_including_key(NONE, BYTES("b"), &found, &partition) == 1 && !found);
    CHECK(bilqarush_last_partition_including_key(BYTES(INDEX), NONE, &found, &partition) == 0 && !found);
    CHECK(bilqarush_first_partition_including_or_after_key(NONE, BYTES("b"), &partition) == 1 && partition == 77);
    CHECK(bilqarush_first_partition_including_or_after_key(BYTES(INDEX), NONE, &partition) == 0 && partition == 0);
    CHECK(bilqarush_partitions_covering_range(NONE, BYTES(A_TO_M), &start, &end) == 1);
    CHECK(bilqarush_partitions_covering_range(BYTES(INDEX), NONE, &start, &end) == 1);
    CHECK(start == 77 && end == 78);
}

static void no_bytes_of_views(void) {
    size_t start = 77, end = 78;
    bool is = false;
    CHECK(bilqarush_table_idx_covering_range(NONE, 0, BYTES(A_TO_M), &start, &end) == 1);
    CHECK(bilqarush_table_idx_covering_range(BYTES(EXAMPLE), 0, NONE, &start, &end) == 1);
    CHECK(start == 77 && end == 78);
    CHECK(bilqarush_overlaps_range(NONE, 0, BYTES(A_TO_M), &is) == 1);
    CHECK(bilqarush_overlaps_range(BYTES(EXAMPLE), 0, NONE, &is) == 1);
    CHECK(bilqarush_intersects_range(NONE, 0, 0, BILQARUSH_UNBOUNDED, NONE, BYTES(A_TO_M), &is) == 1);
    CHECK(bilqarush_intersects_range(BYTES(EXAMPLE), 0, 0, BILQARUSH_UNBOUNDED, NONE, NONE, &is) == 1 && !is);
    CHECK(bilqarush_intersects_range(BYTES(EXAMPLE), 0, 0, BILQARUSH_UNBOUNDED, NONE, BYTES(A_TO_M), &is) == 0 && is);
    CHECK(bilqarush_intersects_range(BYTES(EXAMPLE), 0, 0, BILQARUSH_INCLUDED, NONE, BYTES(A_TO_M), &is) == 0 && !is);
    fill();
    CHECK(stopped(bilqarush_compacted_intersection(NONE, 0, 0, BYTES(A_TO_M), out, ROOM, &written), 1));
    CHECK(stopped(bilqarush_compacted_intersection(BYTES(EXAMPLE), 0, 0, NONE, out, ROOM, &written), 1));
    CHECK(stopped(bilqarush_compacted_intersection(BYTES(EXAMPLE), 0, 0, BYTES(A_TO_M), NONE, &written), 16));
    CHECK(stopped(bilqarush_calculate_view_range(NONE, 0, 0, BYTES(A_TO_M), out, ROOM, &written), 1));
    CHECK(stopped(bilqarush_calculate_view_range(BYTES(EXAMPLE), 0, 0, NONE, out, ROOM, &written), 1));
    CHECK(stopped(bilqarush_calculate_view_range(BYTES(EXAMPLE), 0, 0, BYTES(A_TO_M), NONE, &written), 16));
}

static void no_bytes_of_plans(void) {
    fill();
    CHECK(stopped(bilqarush_sample_anchors(2, 50, NONE, BYTES(EVERYTHING), out, ROOM, &written), 1));
    CHECK(stopped(bilqarush_sample_anchors(2, 50, BYTES(THREE_BLOCKS), NONE, out, ROOM, &written), 1));
    CHECK(stopped(bilqarush_sample_anchors(2, 50, BYTES(THREE_BLOCKS), BYTES(EVERYTHING), NONE, &written), 16));
    CHECK(stopped(bilqarush_select_boundaries(2, 0, NONE, out, ROOM, &written), 1));
    CHECK(stopped(bilqarush_select_boundaries(2, 0, BYTES(TWO_ANCHORS), NONE, &written), 16));
    CHECK(stopped(bilqarush_plan_subcompaction_ranges(2, NONE, BYTES(NO_BLOCKS), out, ROOM, &written), 1));
    CHECK(stopped(bilqarush_plan_subcompaction_ranges(2, BYTES("\0"), NONE, NONE, &written), 16));
    CHECK(wrote(bilqarush_plan_subcompaction_ranges(2, BYTES("\0"), NONE, out, ROOM, &written), BYTES("\x01\0")));
}

/* bindings/rust/tests/header.rs has each name and each text. */
static void words_for_stops(void) {
    CHECK(strcmp(bilqarush_stop_text(BILQARUSH_STOP_OUTPUT_BUFFER), "the output buffer is shorter than the answer") == 0);
    CHECK(strcmp(bilqarush_stop_text(0), "no stop, the call answered") == 0);
    CHECK(strcmp(bilqarush_stop_text(17), "not the number of a stop") == 0);
    CHECK(strcmp(bilqarush_stop_text(255), "not the number of a stop") == 0);
}

int main(void) {
    keys_and_bounds();
    tests_of_ranges();
    points();
    joined_ranges();
    keys_of_an_intersection();
    prefixes();
    images();
    commits();
    a_commit_that_cuts();
    lookups_of_keys();
    coverings();
    tests_of_views();
    ranges_of_views();
    fractions();
    visible_sizes();
    samples();
    plans();
    plans_of_images();
    durable_intervals();
    what_is_left();
    no_bytes_of_keys();
    no_bytes_of_ranges();
    no_bytes_of_prefixes();
    no_bytes_of_images();
    no_bytes_of_commits();
    no_bytes_of_indexes();
    no_bytes_of_views();
    no_bytes_of_plans();
    words_for_stops();
    if (failures == 0) {
        printf("bindings/c/calls: each call answered as expected\n");
    }
    return failures == 0 ? 0 : 1;
}
