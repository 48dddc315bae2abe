/*
 * Bilqarush: ranges of byte keys, images of runs, lookups in them and in indexes, visible sizes, and the plan, the progress
 * and the commit of a compaction, after slatedb 0.18.0.
 *
 * Link libbilqarush_c.a, which `bindings/archive` makes in target/staticlib, for x86-64 Linux; `bindings/c/install` installs
 * it with this header. Of the C library it needs memcpy and memset alone. What each call answers is proved for every input;
 * docs/PROMISES.md names the definitions. bindings/c/examples has two programs, one in C and one in C++.
 *
 *
 * WHAT A CALL RETURNS
 *
 * Each call returns 0 if it answered, else the number of the stop that refused it. BILQARUSH_STOP_INPUT_END and so on are
 * the numbers by name, bilqarush_stop_text has the words. The stops, after document 01:
 *
 *    1  The input ends inside a field, or bytes remain after the last.
 *    2  A padding bit is set or a kind is 3.
 *    3  A length, count or setting exceeds its ceiling, or a prefix and suffix join to over 1,024 bytes.
 *    4  A range, given (but to non_empty) or joined from a prefix and a subrange, fails non_empty.
 *    5  A last key is below its first key, a visible range starts excluded, or it does not meet its table's own range.
 *    6  View starts in a run or first keys within one index image descend, or two runs share an id.
 *    7  Anchor bytes total 2^63 or more, or index_offset + index_len exceeds 2^53.
 *    8  The destination is not a source.
 *    9  A source, or a run or view called by place, is not in the image.
 *   10  A planned range starts excluded or ends included, or a part begins before the previous part's end (unbounded is
 *       least as a start, greatest as an end).
 *   11  An output lacks a last key, is not wholly inside its planned range, or starts below the last key of its part's
 *       previous output.
 *   12  A destination view of an output table holds some key that lies in no durable interval.
 *   13  A retained range misses its table's own range. (Proved never to hold, so no call returns it.)
 *   14  The id supply is used up with an id still to draw.
 *   15  A result has over 1,024 views in a run, over 4,096 anchors, or is an image over 65,536 bytes.
 *   16  The output buffer is shorter than the answer.
 *
 * The stops of a call are listed in checking order; the first whose check fails is returned. "The fields of x" stands for
 * the stops 1 to 3 of a buffer: its length (3); then field by field in reading order, each tested before the next is read;
 * then the bytes that remain (1). A field is each number, flag, padding, key length and key bytes by itself. docs/FORMAT.md
 * has the checks in their order and which call can answer which stop.
 *
 *
 * BUFFERS
 *
 * A slice of bytes is a pointer and then a length. Where the length is 0 the pointer may be NULL, of a slice that is read
 * and of `out`: nothing is read or written through it. Slices that are only read may overlap each other. What is written
 * (`out` and the slots `order`, `is`, `written`, `count`, `found`, `partition`, `start`, `end`, `part`, `fraction` and
 * `size`: all that is not const) overlaps nothing else that the call is given, and has a value before the call. A slot is
 * never NULL.
 *
 * After a stop every byte and every slot is as it was. After 0 a call that has `out` has written the first *written bytes
 * of it; the bytes past them are as they were. What is read is never written. No call allocates, keeps a pointer or keeps
 * anything for the next call, so calls on buffers of their own may run in several threads at once.
 *
 *
 * LAYOUTS
 *
 * Fields are packed most significant bit first, with these widths in bits; padding is zero. docs/FORMAT.md has every field with
 * its place, its ceiling and its stops, what `out` holds after each call, and examples byte by byte.
 *
 *   key     length 16, bytes
 *   range   start kind 2, end kind 2, padding 4; start key, end key where the kind has one
 *   table   id 128, index_offset 64, index_len 64, filter_offset 64, last-key flag 1, padding 7, first key, last key if
 *           flagged
 *   view    id 128, table, visible flag 1, padding 7, range if flagged
 *   image   run count 8; each run: id 32, view count 12, padding 4, views
 *   job     destination 32, source count 8, source ids 32 each, part count 8; each part: range, completed flag 1, output
 *           count 15, tables
 *   index   block count 16; each block: offset 64, first key
 *   anchors count 16; each anchor: key, bytes 64
 *   plan    count 8; ranges
 *
 * Kinds are 0 unbounded, 1 included, 2 excluded. Ids have 48 bits of time and 80 random bits.
 *
 * A range that is an argument (range, subrange, a and b of the calls on two ranges) is a range image: one range in this
 * layout, whole. A key or prefix that is an argument is its bare bytes, without a length before them. Keys are ordered by
 * the first unequal byte, a proper prefix coming first.
 */
#ifndef BILQARUSH_H
#define BILQARUSH_H

#include <stddef.h>
#include <stdint.h>
#ifndef __cplusplus
#include <stdbool.h>
#endif

/* The version of this header and of the archive that is made beside it. */
#define BILQARUSH_VERSION "0.1.0"
#define BILQARUSH_VERSION_MAJOR 0
#define BILQARUSH_VERSION_MINOR 1
#define BILQARUSH_VERSION_PATCH 0

/* Ceilings. BILQARUSH_MAX_BUFFER is that of an input buffer (the id supply apart) and of a written image. */
#define BILQARUSH_MAX_KEY 1024
#define BILQARUSH_MAX_BUFFER 65536
#define BILQARUSH_MAX_RUNS 64
#define BILQARUSH_MAX_VIEWS 1024 /* of a run */
#define BILQARUSH_MAX_SOURCES 64
#define BILQARUSH_MAX_PARTS 64     /* of a job, and those that a plan is asked for */
#define BILQARUSH_MAX_OUTPUTS 1024 /* of a part */
#define BILQARUSH_MAX_ANCHORS 4096 /* given, sampled from all tables, and asked of a table */

/* Kinds of a bound. */
#define BILQARUSH_UNBOUNDED 0
#define BILQARUSH_INCLUDED 1
#define BILQARUSH_EXCLUDED 2

/* Which of two slices supplied a bound. */
#define BILQARUSH_FIRST 1
#define BILQARUSH_SECOND 2

/* Lengths of `out` that are always enough. */
#define BILQARUSH_POINT_LEN 17       /* as_point */
#define BILQARUSH_JOINED_LEN 37      /* intersect, union, compacted_intersection, calculate_view_range */
#define BILQARUSH_VIEW_RANGE_LEN 34  /* compacted_effective_range */
#define BILQARUSH_KEY_LEN 1024       /* intersect_start_key, intersect_end_key */
#define BILQARUSH_RANGE_LEN 2053     /* from_prefix, from_prefix_and_subrange */
#define BILQARUSH_LISTING_LEN 131097 /* list; 25 + 2 * image_len is enough too */
#define BILQARUSH_IMAGE_LEN 65536    /* commit */
#define BILQARUSH_ANCHORS_LEN 65536  /* sample_anchors; index_len is enough too */
#define BILQARUSH_PLAN_LEN 129341    /* select_boundaries, plan_subcompaction_ranges */
#define BILQARUSH_DURABLE_LEN 65536  /* from_compaction; job_len is enough too */
#define BILQARUSH_LEFT_LEN 4107      /* subtract_from */

/* A length of `ids` that is enough while no draw makes the old id again: see bilqarush_commit. */
#define BILQARUSH_IDS_LEN 10920

/* The stops by name. */
enum {
    BILQARUSH_STOP_INPUT_END = 1,
    BILQARUSH_STOP_PADDING_OR_KIND = 2,
    BILQARUSH_STOP_CEILING = 3,
    BILQARUSH_STOP_EMPTY_RANGE = 4,
    BILQARUSH_STOP_TABLE_RANGE = 5,
    BILQARUSH_STOP_ORDER = 6,
    BILQARUSH_STOP_SIZE = 7,
    BILQARUSH_STOP_DESTINATION_NOT_SOURCE = 8,
    BILQARUSH_STOP_NOT_IN_IMAGE = 9,
    BILQARUSH_STOP_PLANNED_RANGE = 10,
    BILQARUSH_STOP_OUTPUT = 11,
    BILQARUSH_STOP_NOT_DURABLE = 12,
    BILQARUSH_STOP_RETAINED_RANGE = 13,
    BILQARUSH_STOP_ID_SUPPLY = 14,
    BILQARUSH_STOP_RESULT_CEILING = 15,
    BILQARUSH_STOP_OUTPUT_BUFFER = 16
};

/* What a returned number means, in words: for each stop its sentence above, without its capital and its full stop. */
static inline const char *bilqarush_stop_text(uint8_t stop) {
    switch (stop) {
    case 0:
        return "no stop, the call answered";
    case BILQARUSH_STOP_INPUT_END:
        return "the input ends inside a field, or bytes remain after the last";
    case BILQARUSH_STOP_PADDING_OR_KIND:
        return "a padding bit is set or a kind is 3";
    case BILQARUSH_STOP_CEILING:
        return "a length, count or setting exceeds its ceiling, or a prefix and suffix join to over 1,024 bytes";
    case BILQARUSH_STOP_EMPTY_RANGE:
        return "a range, given (but to non_empty) or joined from a prefix and a subrange, fails non_empty";
    case BILQARUSH_STOP_TABLE_RANGE:
        return "a last key is below its first key, a visible range starts excluded, or it does not meet its table's "
               "own range";
    case BILQARUSH_STOP_ORDER:
        return "view starts in a run or first keys within one index image descend, or two runs share an id";
    case BILQARUSH_STOP_SIZE:
        return "anchor bytes total 2^63 or more, or index_offset + index_len exceeds 2^53";
    case BILQARUSH_STOP_DESTINATION_NOT_SOURCE:
        return "the destination is not a source";
    case BILQARUSH_STOP_NOT_IN_IMAGE:
        return "a source, or a run or view called by place, is not in the image";
    case BILQARUSH_STOP_PLANNED_RANGE:
        return "a planned range starts excluded or ends included, or a part begins before the previous part's end "
               "(unbounded is least as a start, greatest as an end)";
    case BILQARUSH_STOP_OUTPUT:
        return "an output lacks a last key, is not wholly inside its planned range, or starts below the last key of "
               "its part's previous output";
    case BILQARUSH_STOP_NOT_DURABLE:
        return "a destination view of an output table holds some key that lies in no durable interval";
    case BILQARUSH_STOP_RETAINED_RANGE:
        return "a retained range misses its table's own range";
    case BILQARUSH_STOP_ID_SUPPLY:
        return "the id supply is used up with an id still to draw";
    case BILQARUSH_STOP_RESULT_CEILING:
        return "a result has over 1,024 views in a run, over 4,096 anchors, or is an image over 65,536 bytes";
    case BILQARUSH_STOP_OUTPUT_BUFFER:
        return "the output buffer is shorter than the answer";
    default:
        return "not the number of a stop";
    }
}

#ifdef __cplusplus
extern "C" {
#endif

/* ---- Keys and bounds ---- */

/*
 * The order of two keys: *order is -1, 0 or 1.
 * Stops: 3 if a is over 1,024 bytes, then 3 if b is.
 */
uint8_t bilqarush_compare(const uint8_t *a, size_t a_len, const uint8_t *b, size_t b_len, int8_t *order);

/*
 * The order of two bounds, both starts (`start` true) or both ends: *order is -1, 0 or 1. A bound is given as its kind and
 * its key; an unbounded one has a key of 0 bytes. At equal keys, included comes before excluded as a start and after it as
 * an end. An unbounded start is least, an unbounded end greatest.
 * Stops, of the first bound and then of the second: 2 if the kind is over 2; 3 if the key is over 1,024 bytes (over 65,536
 * where unbounded); 1 if an unbounded bound has bytes.
 */
uint8_t bilqarush_cmp_bound(uint8_t a_kind, const uint8_t *a, size_t a_len, uint8_t b_kind, const uint8_t *b,
                            size_t b_len, bool start, int8_t *order);

/* ---- Ranges ---- */

/*
 * Whether a range passes slatedb's rule: with two keys, start < end, or equality if both are included; with an unbounded
 * side always. Two kinds of range pass and hold no key: excluded k to excluded k followed by 00, and unbounded to excluded
 * empty key.
 * Stops: the fields of range.
 */
uint8_t bilqarush_non_empty(const uint8_t *range, size_t range_len, bool *is);

/*
 * Whether a range holds a key.
 * Stops: the fields of range; 3 if key is over 1,024 bytes; 4.
 */
uint8_t bilqarush_contains(const uint8_t *range, size_t range_len, const uint8_t *key, size_t key_len, bool *is);

/*
 * The key of a range that is one point: both bounds included, with equal keys.
 * Writes one byte 0 if the range is no point (*written 1); else one byte 1, then the place of the start's key in `range`
 * and its length, 8 bytes each, most significant first (*written 17).
 * Stops: the fields of range; 4; 16.
 */
uint8_t bilqarush_as_point(const uint8_t *range, size_t range_len, uint8_t *out, size_t out_len, size_t *written);

/*
 * The intersection of two ranges: the greater start and the lesser end; of equal bounds, b's start and a's end.
 * Writes one byte 0 if there is none (*written 1); else one byte 1, then the start and the end (*written 37). Each bound:
 * kind, 1 byte; the range that supplied it, 1 byte (1 a, 2 b); the place of its key in that slice and its length, 8 bytes
 * each, most significant first. For an unbounded bound place and length say nothing.
 * Stops: the fields of a, then of b; 4 of either; 16.
 */
uint8_t bilqarush_intersect(const uint8_t *a, size_t a_len, const uint8_t *b, size_t b_len, uint8_t *out,
                            size_t out_len, size_t *written);

/*
 * The key of the intersection's start. Writes its bytes; none (*written 0, no stop) where there is no intersection or it
 * starts unbounded.
 * Stops: as bilqarush_intersect.
 */
uint8_t bilqarush_intersect_start_key(const uint8_t *a, size_t a_len, const uint8_t *b, size_t b_len, uint8_t *out,
                                      size_t out_len, size_t *written);

/* The key of the intersection's end, in the same way. Stops: as bilqarush_intersect. */
uint8_t bilqarush_intersect_end_key(const uint8_t *a, size_t a_len, const uint8_t *b, size_t b_len, uint8_t *out,
                                    size_t out_len, size_t *written);

/*
 * The union of two ranges that meet or are adjacent, as slatedb has it: none for [a,a] and [a00,b], though no key lies
 * between. The start is the lesser range's (by start, then by end; b's if they are equal); the end is the greater, of equal
 * ends the other range's.
 * Writes and stops as bilqarush_intersect.
 */
uint8_t bilqarush_union(const uint8_t *a, size_t a_len, const uint8_t *b, size_t b_len, uint8_t *out, size_t out_len,
                        size_t *written);

/*
 * The range of the keys that begin with a prefix. Writes a range image: from the prefix included up to the next prefix
 * excluded, or unbounded where the prefix has no next (it is all FF); for an empty prefix unbounded on both sides.
 * Stops: 3 if prefix is over 1,024 bytes; 16.
 */
uint8_t bilqarush_from_prefix(const uint8_t *prefix, size_t prefix_len, uint8_t *out, size_t out_len, size_t *written);

/*
 * The range of the keys that are a prefix and then a key of a subrange. Writes a range image.
 * Stops: 3 if prefix is over 1,024 bytes; the fields of subrange; 3 if the prefix and a key of the subrange join to over
 * 1,024 bytes; 4 of the subrange or of the joined range; 16.
 */
uint8_t bilqarush_from_prefix_and_subrange(const uint8_t *prefix, size_t prefix_len, const uint8_t *subrange,
                                           size_t subrange_len, uint8_t *out, size_t out_len, size_t *written);

/* ---- Images ---- */

/*
 * Whether bytes are an image, which the calls below then take: 0 if so.
 * Stops: the fields of image; 4; 5; 6; 7.
 */
uint8_t bilqarush_check_image(const uint8_t *image, size_t image_len);

/*
 * The effective range of a view: its table's own range, cut by its visible range. `run` is the run's place in the image
 * and `view` the view's place in its run, both from 0.
 * Writes the start and the end (*written 34). Each: kind, 1 byte; the place of its key in `image` and its length, 8 bytes
 * each, most significant first. For an unbounded end place and length say nothing.
 * Stops: as bilqarush_check_image; 9; 16.
 */
uint8_t bilqarush_compacted_effective_range(const uint8_t *image, size_t image_len, size_t run, size_t view,
                                            uint8_t *out, size_t out_len, size_t *written);

/*
 * The listing of an image. Writes text in ASCII, each line ended by a newline and no 0 byte after the last: the header
 * `run view table start end`, then a line for each view, as in
 *
 *     7 0 00000000000000000000000000000001 [61 63]
 *     7 1 00000000000000000000000000000002 [64 -
 *
 * Run id and view place are decimal, table id and keys lowercase hexadecimal. The bounds are those of the effective range,
 * an excluded one with a round bracket, an unbounded one as `-`.
 * Stops: as bilqarush_check_image; 16.
 */
uint8_t bilqarush_list(const uint8_t *image, size_t image_len, uint8_t *out, size_t out_len, size_t *written);

/*
 * The commit of a compaction's record, finished or not. Writes the image in which what is durable of the job shows through
 * its output tables in the destination and no longer through the sources. Durable is the planned range of a completed part;
 * of an unfinished one, its planned range up to, without, the last key of its last output, and nothing if it has no output
 * or that key is its start.
 *
 * A new view id keeps the 48 bits of time of the old one and takes the next 10 bytes of `ids`, and 10 more as often as that makes
 * the old id again; a rest of under 10 bytes counts as used up. Cut outputs draw first, in job order, then the views of
 * source runs, in image order. The supply has no ceiling. The call takes about 120 KB of stack.
 *
 * Give random bytes that are fresh for each commit, and use none twice: equal bytes can make equal ids. BILQARUSH_IDS_LEN of
 * them are enough for a commit that 15 does not refuse, and 10 more for each draw that makes the old id again: a view of the
 * new image draws one id at most and has 60 bytes at least, so 65,536 bytes hold 1,092 views at most.
 *
 * `image` and `job` are both a pointer and a length, so exchanging the two compiles. The job is then read as an image: stop 1 if
 * its destination is below 2^24 (no runs, and bytes remain); else 1, 2 or 3, unless its bytes happen to be an image too.
 *
 * Stops: the fields of image, then of job; 4, 5, 6 and 7, each over both before the next; 8; 9; 10; 11; 12; 14; 15; 16.
 */
uint8_t bilqarush_commit(const uint8_t *image, size_t image_len, const uint8_t *job, size_t job_len, const uint8_t *ids,
                         size_t ids_len, uint8_t *out, size_t out_len, size_t *written);

/* ---- Lookup in an index ---- */

/*
 * The blocks of an index are its partitions, told by their places from 0 on. Each has a first key, and no key of a partition
 * is below its first key or above the next one's. A key can stand in several partitions side by side.
 */

/*
 * How many of the leading first keys satisfy a test: being below `key` (`at_or_below` false), or at or below it. *count is
 * that number, 0 if there are no partitions.
 * Stops: the fields of index (1 and 3 alone); 3 if key is over 1,024 bytes; 6.
 */
uint8_t bilqarush_partition_point(const uint8_t *index, size_t index_len, bool at_or_below, const uint8_t *key,
                                  size_t key_len, size_t *count);

/*
 * The first partition that can hold a key: the last whose first key is below it, else the first if the key is its first key.
 * *found says whether there is one, and *partition is its place; where there is none, *partition is left as it was. There is
 * none if each first key is above the key, and none with no partitions.
 * Stops: as bilqarush_partition_point.
 */
uint8_t bilqarush_first_partition_including_key(const uint8_t *index, size_t index_len, const uint8_t *key,
                                                size_t key_len, bool *found, size_t *partition);

/*
 * The first partition that can hold a key or one after it: that of bilqarush_first_partition_including_key, and 0 where that
 * finds none, also with no partitions.
 * Stops: as bilqarush_partition_point.
 */
uint8_t bilqarush_first_partition_including_or_after_key(const uint8_t *index, size_t index_len, const uint8_t *key,
                                                         size_t key_len, size_t *partition);

/*
 * The last partition that can hold a key: the last whose first key is at or below it. *found and *partition as in
 * bilqarush_first_partition_including_key: there is none if each first key is above the key, and none with no partitions.
 * Stops: as bilqarush_partition_point.
 */
uint8_t bilqarush_last_partition_including_key(const uint8_t *index, size_t index_len, const uint8_t *key,
                                               size_t key_len, bool *found, size_t *partition);

/*
 * The partitions that can hold a key of a range: those from *start up to, without, *end; none if both are equal. With no
 * partitions both are 0.
 * Stops: the fields of index (1 and 3 alone), then of range; 4; 6.
 */
uint8_t bilqarush_partitions_covering_range(const uint8_t *index, size_t index_len, const uint8_t *range,
                                            size_t range_len, size_t *start, size_t *end);

/* ---- Lookup in an image ---- */

/*
 * In these calls `run` is the run's place in the image and `view` the view's place in its run, both from 0. Each takes any
 * number there; a place that is not in the image is stop 9.
 */

/*
 * The views of a run that can hold a key of a range: those from *start up to, without, *end; none if both are equal. Both
 * are 0 if the run has no views. A view counts up to the next view's effective start, and with that key if its effective
 * range holds it; the last view counts without end.
 * Stops: the fields of image, then of range; 4, of the range or a visible range; 5; 6; 7; 9.
 */
uint8_t bilqarush_table_idx_covering_range(const uint8_t *image, size_t image_len, size_t run, const uint8_t *range,
                                           size_t range_len, size_t *start, size_t *end);

/*
 * Whether a range meets a run's span: from the effective start of its first view to the effective end of its last. Without
 * views it does not.
 * Stops: as bilqarush_table_idx_covering_range.
 */
uint8_t bilqarush_overlaps_range(const uint8_t *image, size_t image_len, size_t run, const uint8_t *range,
                                 size_t range_len, bool *is);

/*
 * What a view keeps of a range. Of the last view of a run: the intersection of its effective range and the range. Of
 * another: the intersection of the keys from its effective start up to the next view's (with that key if its effective range
 * holds it, and keys past its last key too) and the range; then, if it has a visible range, the intersection of the result
 * and that.
 * Writes as bilqarush_intersect, with slice 1 the image and slice 2 the range: of equal bounds each intersection takes the
 * second's start and the first's end, in the order said here.
 * Stops: as bilqarush_table_idx_covering_range; 16.
 */
uint8_t bilqarush_compacted_intersection(const uint8_t *image, size_t image_len, size_t run, size_t view,
                                         const uint8_t *range, size_t range_len, uint8_t *out, size_t out_len,
                                         size_t *written);

/*
 * The part of a range that a view is read for: the intersection of the range and its visible range; without one, of the
 * range and its table's own range; and without a last key either, the range as it is.
 * Writes as bilqarush_intersect, with slice 1 the image and slice 2 the range: of equal bounds the image's start and the
 * range's end.
 * Stops: as bilqarush_table_idx_covering_range; 16.
 */
uint8_t bilqarush_calculate_view_range(const uint8_t *image, size_t image_len, size_t run, size_t view,
                                       const uint8_t *range, size_t range_len, uint8_t *out, size_t out_len,
                                       size_t *written);

/*
 * Whether a range meets a view that counts from its effective start up to an end bound, which stands in place of its own
 * end. It does not where the view's effective range lies behind that bound. The end bound is given as its kind and its key;
 * an unbounded one has a key of 0 bytes.
 * Stops: the fields of image; of the end bound, 2 if the kind is over 2, 3 if the key is over 1,024 bytes (over 65,536 where
 * unbounded), 1 if an unbounded bound has bytes; the fields of range; 4, of the range or a visible range; 5; 6; 7; 9.
 */
uint8_t bilqarush_intersects_range(const uint8_t *image, size_t image_len, size_t run, size_t view, uint8_t end_kind,
                                   const uint8_t *end, size_t end_len, const uint8_t *range, size_t range_len,
                                   bool *is);

/* ---- Visible size ---- */

/*
 * In these calls too `run` is the run's place in the image and `view` the view's place in its run, both from 0. Each takes
 * any number there; a place that is not in the image is stop 9.
 */

/*
 * How much of its table a view shows. *part is false if it is whole, and *fraction is left as it was: where the table has no
 * last key, where the view's effective range is the table's own range, and where the effective range has the length 0. Else
 * *part is true and *fraction is the length of the effective range divided by that of the own range, or by 2^-52 if that is
 * greater; it is 1e-6 at least and 1 at most.
 * The length of a range is the number of its end's key minus that of its start's. Of a key the bytes after the common prefix
 * of the table's first and last key count, eight at most: the first as 256ths, the next as 256ths of these, and so on. Each
 * step is one of binary64, `double` here, in slatedb's order, and the bits of *fraction are the Rust's.
 * Stops: as bilqarush_check_image; 9.
 */
uint8_t bilqarush_visible_fraction(const uint8_t *image, size_t image_len, size_t run, size_t view, bool *part,
                                   double *fraction);

/*
 * The visible size of a view, in bytes. *size is the raw size of its table, index_offset + index_len, if it has no visible
 * range; else the raw size times the fraction of bilqarush_visible_fraction (1 if it is whole), rounded to the nearest whole
 * number, a half up, and 1 at least.
 * Stops: as bilqarush_check_image; 9.
 */
uint8_t bilqarush_estimate_visible_size(const uint8_t *image, size_t image_len, size_t run, size_t view,
                                        uint64_t *size);

/*
 * The visible size of a run: *size is the sum over its views, 0 if it has none.
 * Stops: as bilqarush_check_image; 9.
 */
uint8_t bilqarush_estimate_run_visible_size(const uint8_t *image, size_t image_len, size_t run, uint64_t *size);

/* ---- Plan ---- */

/*
 * The anchors of a table whose index is given and whose data end at an offset: keys, each with the bytes that it stands
 * for. The blocks go in groups of one size, the last maybe shorter: of as few blocks as make at most `most` groups. A
 * group's anchor has its first block's first key, and the bytes from that block's offset to the next group's, of the last
 * group to data_end; none where the later offset is the lesser. The anchors whose key the range holds are answered. `most`
 * is 0 to 4,096, and 0 acts as 1; data_end has no ceiling. The call takes about 70 KB of stack.
 * Writes an anchors image.
 * Stops: 3 if most is over 4,096; the fields of index (1 and 3 alone), then of range; 4; 6; 16.
 */
uint8_t bilqarush_sample_anchors(size_t most, uint64_t data_end, const uint8_t *index, size_t index_len,
                                 const uint8_t *range, size_t range_len, uint8_t *out, size_t out_len, size_t *written);

/*
 * Ranges that hold each key exactly once, at most `parts` of them, that carry about equal shares of the anchors' bytes.
 * The target is the total of the bytes divided by `parts`, rounded down, or `least` if that is greater. If parts is 1, the
 * target is 0 or the target is the total or above, there is one range, unbounded on both sides. Else the anchors are gone
 * through in the order of their keys, those of equal keys as they are given. An anchor's key is a boundary once the bytes
 * of those before it reach the target times one more than the boundaries so far, if it exceeds the smallest anchor key and
 * the boundary before it and there are fewer than parts - 1 yet. Each range but the last ends excluded at a boundary,
 * where the next starts included. `parts` is 0 to 64, and 0 acts as 1; least has no ceiling. The call takes about 200 KB of
 * stack.
 * Writes a plan.
 * Stops: 3 if parts is over 64; the fields of anchors (1 and 3 alone); 7; 16.
 */
uint8_t bilqarush_select_boundaries(size_t parts, uint64_t least, const uint8_t *anchors, size_t anchors_len,
                                    uint8_t *out, size_t out_len, size_t *written);

/*
 * The ranges in which the views of an image are compacted: those of bilqarush_select_boundaries for the anchors of all
 * views, with the largest raw size (index_offset + index_len) as `least`. `indexes` has one index for each view, in image
 * order, laid end to end. Of a view's table 128 anchors at most are sampled, as in bilqarush_sample_anchors: the data end
 * at its filter_offset, and the range is the view's effective range. `parts` is 0 to 64, and 0 acts as 1. The call takes
 * about 200 KB of stack.
 * Writes a plan.
 * Stops: 3 if parts is over 64; the fields of image, then of indexes (1 and 3 alone); 4; 5; 6, of the image or within one
 * index; 7, of a raw size or of the total of the sampled anchors; 15 if over 4,096 anchors are sampled; 16.
 */
uint8_t bilqarush_plan_subcompaction_ranges(size_t parts, const uint8_t *image, size_t image_len,
                                            const uint8_t *indexes, size_t indexes_len, uint8_t *out, size_t out_len,
                                            size_t *written);

/* ---- Progress of a compaction ---- */

/*
 * The durable intervals of a job's parts, in order, each a range: of a completed part its planned range; of an unfinished one
 * its planned range up to, without, the last key of its last output, and none if it has no output or that key is its start.
 * They are what bilqarush_commit takes out of the sources. No ids are drawn.
 * Writes a plan: a count, 0 to 64, and the ranges.
 * Stops: the fields of job; 4; 5; 7; 8; 10; 11; 16.
 */
uint8_t bilqarush_from_compaction(const uint8_t *job, size_t job_len, uint8_t *out, size_t out_len, size_t *written);

/*
 * What of a range lies outside an interval, in key order: its keys below the interval's start, and its keys from the
 * interval's end on. The interval is given as a range; its start is included or unbounded, its end excluded or unbounded.
 * Writes a plan: a count, 0 to 2, and the ranges.
 * Stops: the fields of interval, then of range; 4, of either; 10, of the interval; 16.
 */
uint8_t bilqarush_subtract_from(const uint8_t *interval, size_t interval_len, const uint8_t *range, size_t range_len,
                                uint8_t *out, size_t out_len, size_t *written);

#ifdef __cplusplus
}
#endif

#endif
