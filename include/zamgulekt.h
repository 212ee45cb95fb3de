/*
 * Zamgulekt for C and C++: filters of sets of buckets, their rows, and what two of them have in
 * common. docs/MANUAL.md tells what each call is for; here stands how C calls it.
 *
 * The functions are in libexports.a, which bindings/archive makes in crates/exports/out:
 *
 *     cc -I include program.c crates/exports/out/libexports.a
 *
 * Each function returns 0, or the number of a refusal. What it answers besides, it writes to the
 * memory that it was lent.
 *
 * What you lend:
 *   - a list, a row, a text or an area is a pointer and, behind it, the number of its cells;
 *   - a record is an array of the length named below; a field may join a record later, so declare
 *     `uint64_t record[ZAMGULEKT_FILTER]` and name its cells by the constants;
 *   - a single answer is a pointer to one cell.
 *
 * What C must guarantee, since no call can check it:
 *   - the program is compiled with the header of the archive that it links, since a record may be
 *     longer in a later one, for the archive's machine: size_t has 64 bits;
 *   - each pointer is aligned for its type and valid for its length; what the call reads is
 *     initialised. A pointer whose length is 0 may be null. A pointer without a length, to a record
 *     or to one cell, is never null;
 *   - memory that the call writes overlaps no other memory lent to the same call. Memory that it
 *     only reads, which is what it takes by `const`, may be lent twice: one filter may be both `a`
 *     and `b`.
 *
 * What each call guarantees, whatever numbers, lengths and contents it is lent:
 *   - it returns;
 *   - a refusal leaves every byte that was lent as it was; otherwise nothing is written but what
 *     the call answers: of an area never a cell past its size, of a buffer none past the answer;
 *   - it keeps no pointer once it has returned;
 *   - it allocates nothing and has no global state, so threads may call at the same time, each with
 *     memory of its own or with memory that all of them only read;
 *   - it calls nothing but memcpy and memset;
 *   - it takes at most ZAMGULEKT_STACK bytes of stack, but zamgulekt_compare_text takes up to
 *     ZAMGULEKT_TEXT_STACK. Both figures are measured and not proved: on x86-64, for the archive as
 *     the kit compiles it. If the dynamic linker binds memcpy or memset during the call, its own
 *     stack is not counted.
 */
#ifndef ZAMGULEKT_H
#define ZAMGULEKT_H

#include <stddef.h>
#include <stdint.h>

#if SIZE_MAX != UINT64_MAX
#error "size_t must have 64 bits"
#endif

#ifdef __cplusplus
extern "C" {
#endif

/*
 * The refusals:
 *
 *    1  the configuration is not 7, 10 or 13
 *    2  a listed bucket or a row's top entry is W or more, or a split handed in exceeds W
 *    3  a lent slice is shorter than its area, or than the row to be written
 *    4  row length is above the longest, or neither a multiple of the entry size up to M entries,
 *       nor M entries + 1 + 8k with k at least 1
 *    5  another reason why no set has this row
 *    6  mask size is not 1 to 63
 *    7  a mask bit at or above the size is set
 *    8  record and areas are no set's filter; or the builder has over 2M pending, a pending bucket
 *       of W or more, split above W, a bit at or above the split, or a nonzero unused cell
 *    9  two filters have different configurations
 *   10  a bucket does not fit its key slot
 *   11  the program's text is malformed
 *
 * Where two faults meet, the order is: 1 for each configuration, 3 for each area, 8 for each filter
 * or builder, 9, 6, 7, 4, 2, 5, 10, and last 3 for a buffer. Of two rows the first is judged by 4,
 * 2 and 5 before the second. 10 is not met: every bucket of a sound filter fits its slot. 11 stands
 * only in the text that zamgulekt_compare_text writes.
 */

/* The length of each record, and its cells. */

/* A configuration's sizes. M, the top area's cells, is 12, 64 or 384; W, all buckets, 8320, 66560
   or 532480; the bit area has W / 64 cells; a builder's pending area has 2M. */
#define ZAMGULEKT_SIZES 9
#define ZAMGULEKT_SIZES_LEVEL 0   /* B: 2^B buckets per level */
#define ZAMGULEKT_SIZES_TOP 1     /* M: the cells of the top area */
#define ZAMGULEKT_SIZES_ENTRY 2   /* bytes per top entry of a row */
#define ZAMGULEKT_SIZES_BUDGET 3  /* the byte budget */
#define ZAMGULEKT_SIZES_BUCKETS 4 /* W: all buckets, numbered 0 to W - 1 */
#define ZAMGULEKT_SIZES_BLOCKS 5  /* the cells of the bit area */
#define ZAMGULEKT_SIZES_BITS 6    /* the bits of a bucket's position in a key */
#define ZAMGULEKT_SIZES_WINDOW 7  /* the blocks that the limited count looks at */
#define ZAMGULEKT_SIZES_LONGEST 8 /* the bytes of the longest row */

/* A filter's record; with it go the top area and the bit area. */
#define ZAMGULEKT_FILTER 3
#define ZAMGULEKT_FILTER_CONFIG 0
#define ZAMGULEKT_FILTER_COUNT 1    /* the entries in use of the top area */
#define ZAMGULEKT_FILTER_BOUNDARY 2 /* the bits hold the members below it */

/* A builder's record; with it go the pending area and the bit area. */
#define ZAMGULEKT_BUILDER 3
#define ZAMGULEKT_BUILDER_CONFIG 0
#define ZAMGULEKT_BUILDER_SPLIT 1
#define ZAMGULEKT_BUILDER_COUNT 2 /* the cells in use of the pending area */

/* A limited count. */
#define ZAMGULEKT_LIMITED 2
#define ZAMGULEKT_LIMITED_COUNT 0
#define ZAMGULEKT_LIMITED_BOUND 1

/* A row reader; with it goes the row. */
#define ZAMGULEKT_READER 2
#define ZAMGULEKT_READER_CONFIG 0
#define ZAMGULEKT_READER_PLACE 1 /* how many buckets it has given */

/* What a reader's step gives. */
#define ZAMGULEKT_STEP 2
#define ZAMGULEKT_STEP_GIVEN 0  /* 1, or 0 at the end */
#define ZAMGULEKT_STEP_BUCKET 1 /* the bucket, or 0 at the end */

/* What a step from a place gives. */
#define ZAMGULEKT_STEPPED 3
#define ZAMGULEKT_STEPPED_GIVEN 0  /* 1, or 0 at the end */
#define ZAMGULEKT_STEPPED_BUCKET 1 /* the bucket, or 0 at the end */
#define ZAMGULEKT_STEPPED_PLACE 2  /* the place to go on from */

/* An order: the first against the second. */
#define ZAMGULEKT_LESS 0
#define ZAMGULEKT_EQUAL 1
#define ZAMGULEKT_GREATER 2

/* Which of two rows. */
#define ZAMGULEKT_FIRST 0
#define ZAMGULEKT_SECOND 1

/* Bytes that are always enough for the answer of zamgulekt_compare_text. */
#define ZAMGULEKT_TEXT 322

/* Bytes of stack that are enough for zamgulekt_compare_text, and for any other call. */
#define ZAMGULEKT_TEXT_STACK 49152
#define ZAMGULEKT_STACK 4096

/* The sizes of a configuration: how much memory to lend. Refuses with 1. */
uint8_t zamgulekt_sizes_of(uint64_t config, uint64_t sizes[ZAMGULEKT_SIZES]);

/* The empty filter. What the areas held does not matter. Refuses with 1, 3. */
uint8_t zamgulekt_empty(uint64_t config,
                        uint64_t record[ZAMGULEKT_FILTER],
                        uint32_t *top, size_t top_len,
                        uint64_t *blocks, size_t blocks_len);

/* Flips the membership of each listed bucket, once for each time that it is listed. The whole list
   is judged before the first flip. Refuses with 1, 3, 8, 2. */
uint8_t zamgulekt_toggle(uint64_t record[ZAMGULEKT_FILTER],
                         uint32_t *top, size_t top_len,
                         uint64_t *blocks, size_t blocks_len,
                         const uint32_t *list, size_t list_len);

/* Makes the filter of the buckets that exactly one of two filters holds. What its areas held does
   not matter; they are sized by `a`. Refuses with 1, 3, 8, 9. */
uint8_t zamgulekt_symmetric_difference(const uint64_t a[ZAMGULEKT_FILTER],
                                       const uint32_t *top, size_t top_len,
                                       const uint64_t *blocks, size_t blocks_len,
                                       const uint64_t b[ZAMGULEKT_FILTER],
                                       const uint32_t *top2, size_t top2_len,
                                       const uint64_t *blocks2, size_t blocks2_len,
                                       uint64_t to[ZAMGULEKT_FILTER],
                                       uint32_t *to_top, size_t to_top_len,
                                       uint64_t *to_blocks, size_t to_blocks_len);

/* A builder of the empty set. The split, 0 to W, matters for the time that pushing takes and not
   for what is built. What the areas held does not matter. Refuses with 1, 3, 2. */
uint8_t zamgulekt_builder_new(uint64_t config,
                              size_t split,
                              uint64_t builder[ZAMGULEKT_BUILDER],
                              uint32_t *pending, size_t pending_len,
                              uint64_t *bits, size_t bits_len);

/* Flips the membership of each listed bucket, as zamgulekt_toggle does. Refuses with 1, 3, 8, 2. */
uint8_t zamgulekt_builder_push(uint64_t builder[ZAMGULEKT_BUILDER],
                               uint32_t *pending, size_t pending_len,
                               uint64_t *bits, size_t bits_len,
                               const uint32_t *list, size_t list_len);

/* Raises the split; a value no higher than the present one changes nothing. Refuses with 1, 3, 8,
   2. */
uint8_t zamgulekt_builder_raise(uint64_t builder[ZAMGULEKT_BUILDER],
                                const uint32_t *pending, size_t pending_len,
                                const uint64_t *bits, size_t bits_len,
                                size_t to);

/* Makes the filter of the builder's set; the builder stays as it is. What the filter's areas held
   does not matter. Refuses with 1, 3, 8. */
uint8_t zamgulekt_builder_finish(const uint64_t builder[ZAMGULEKT_BUILDER],
                                 const uint32_t *pending, size_t pending_len,
                                 const uint64_t *bits, size_t bits_len,
                                 uint64_t record[ZAMGULEKT_FILTER],
                                 uint32_t *top, size_t top_len,
                                 uint64_t *blocks, size_t blocks_len);

/* How many buckets the set has. Refuses with 1, 3, 8. */
uint8_t zamgulekt_exact_count(const uint64_t record[ZAMGULEKT_FILTER],
                              const uint32_t *top, size_t top_len,
                              const uint64_t *blocks, size_t blocks_len,
                              uint64_t *count);

/* The limited count and its bound. Refuses with 1, 3, 8. */
uint8_t zamgulekt_limited_count(const uint64_t record[ZAMGULEKT_FILTER],
                                const uint32_t *top, size_t top_len,
                                const uint64_t *blocks, size_t blocks_len,
                                uint64_t limited[ZAMGULEKT_LIMITED]);

/* How many buckets exactly one of two filters holds: 0 exactly where the sets are the same. Refuses
   with 1, 3, 8, 9. */
uint8_t zamgulekt_exact_difference(const uint64_t a[ZAMGULEKT_FILTER],
                                   const uint32_t *top, size_t top_len,
                                   const uint64_t *blocks, size_t blocks_len,
                                   const uint64_t b[ZAMGULEKT_FILTER],
                                   const uint32_t *top2, size_t top2_len,
                                   const uint64_t *blocks2, size_t blocks2_len,
                                   uint64_t *count);

/* The limited count of the buckets that exactly one of two filters holds. Refuses with 1, 3, 8,
   9. */
uint8_t zamgulekt_limited_difference(const uint64_t a[ZAMGULEKT_FILTER],
                                     const uint32_t *top, size_t top_len,
                                     const uint64_t *blocks, size_t blocks_len,
                                     const uint64_t b[ZAMGULEKT_FILTER],
                                     const uint32_t *top2, size_t top2_len,
                                     const uint64_t *blocks2, size_t blocks2_len,
                                     uint64_t limited[ZAMGULEKT_LIMITED]);

/* The order of two filters under a mask, which keeps bucket p where bit p mod size of it is set.
   Mask 1 of size 1 keeps all. Refuses with 1, 3, 8, 9, 6, 7. */
uint8_t zamgulekt_cmp_masked(const uint64_t a[ZAMGULEKT_FILTER],
                             const uint32_t *top, size_t top_len,
                             const uint64_t *blocks, size_t blocks_len,
                             const uint64_t b[ZAMGULEKT_FILTER],
                             const uint32_t *top2, size_t top2_len,
                             const uint64_t *blocks2, size_t blocks2_len,
                             uint64_t mask,
                             size_t size,
                             uint64_t *order);

/* The key of the largest kept buckets. Of filters of one configuration, under one mask, a greater
   one never has a smaller key; equal keys decide nothing. Refuses with 1, 3, 8, 6, 7. */
uint8_t zamgulekt_masked_sort_key(const uint64_t record[ZAMGULEKT_FILTER],
                                  const uint32_t *top, size_t top_len,
                                  const uint64_t *blocks, size_t blocks_len,
                                  uint64_t mask,
                                  size_t size,
                                  uint64_t *key);

/* Writes the filter's row to the beginning of a buffer, and its length. Refuses with 1, 3 for the
   areas, 8, and 3 where the row does not fit the buffer. */
uint8_t zamgulekt_write(const uint64_t record[ZAMGULEKT_FILTER],
                        const uint32_t *top, size_t top_len,
                        const uint64_t *blocks, size_t blocks_len,
                        uint8_t *row, size_t row_len,
                        uint64_t *length);

/* Makes the filter of the set that has this row. What the areas held does not matter. Refuses with
   1, 3, 4, 2, 5. */
uint8_t zamgulekt_read(uint64_t config,
                       const uint8_t *row, size_t row_len,
                       uint64_t record[ZAMGULEKT_FILTER],
                       uint32_t *top, size_t top_len,
                       uint64_t *blocks, size_t blocks_len);

/* The size of the set whose row this is; judges the row as zamgulekt_read does. A row that was cut
   can be another set's row, and is taken: docs/MANUAL.md, "What a row cannot tell". Refuses with 1,
   4, 2, 5. */
uint8_t zamgulekt_open(uint64_t config, const uint8_t *row, size_t row_len, uint64_t *count);

/* The order of two rows under a mask. Refuses with 1, 6, 7, then 4, 2, 5 for each row. */
uint8_t zamgulekt_cmp_rows(uint64_t config,
                           uint64_t mask,
                           size_t size,
                           const uint8_t *first, size_t first_len,
                           const uint8_t *second, size_t second_len,
                           uint64_t *order);

/* Which of two rows is the greater under a mask: the first if they are equal. Refuses as
   zamgulekt_cmp_rows does. */
uint8_t zamgulekt_greater_row(uint64_t config,
                              uint64_t mask,
                              size_t size,
                              const uint8_t *first, size_t first_len,
                              const uint8_t *second, size_t second_len,
                              uint64_t *which);

/* A reader that has given so many buckets. Judges nothing and refuses nothing. */
uint8_t zamgulekt_row_reader_new(uint64_t config, size_t place, uint64_t reader[ZAMGULEKT_READER]);

/* Gives the next bucket, from the largest down, and moves the reader on; or tells the end. Each
   step judges the whole row and walks to its place: to see many buckets of a long row, read it.
   Refuses as zamgulekt_open does. */
uint8_t zamgulekt_row_reader_step(uint64_t reader[ZAMGULEKT_READER],
                                  const uint8_t *row, size_t row_len,
                                  uint64_t step[ZAMGULEKT_STEP]);

/* The same without a reader: the bucket at a place, which is 0 for the largest, and the place
   behind it. Refuses as zamgulekt_open does. */
uint8_t zamgulekt_step_at(const uint8_t *row, size_t row_len,
                          uint64_t config,
                          size_t place,
                          uint64_t stepped[ZAMGULEKT_STEPPED]);

/* The comparing program on memory: the bytes of its input to those of its answer, at the beginning
   of a buffer, and their length. A refusal of the input is an answer too, the line `refused N L`.
   Takes up to ZAMGULEKT_TEXT_STACK bytes of stack: a thread that calls it needs that room.
   Refuses with 3 where the answer does not fit the buffer; ZAMGULEKT_TEXT bytes are enough. */
uint8_t zamgulekt_compare_text(const uint8_t *input, size_t input_len,
                               uint8_t *text, size_t text_len,
                               uint64_t *length);

#ifdef __cplusplus
}
#endif

#endif
