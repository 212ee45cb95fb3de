/*
 * Tries what include/zamgulekt.h says of lent memory, in configuration 7: a null pointer whose
 * length is 0 for each parameter that has a length, refusals that leave every byte as it was,
 * memory that is read and lent twice, and the cells of each record.
 *
 * Writes each parameter for which null was tried, and `wrong: ...` for what is not as it is said.
 */
#include <stdio.h>
#include <string.h>

#include "zamgulekt.h"

#define TOP 12
#define BLOCKS 130
#define LONGEST 1065

struct filter {
    uint64_t record[ZAMGULEKT_FILTER];
    uint32_t top[TOP];
    uint64_t blocks[BLOCKS];
};

struct builder {
    uint64_t record[ZAMGULEKT_BUILDER];
    uint32_t pending[2 * TOP];
    uint64_t bits[BLOCKS];
};

/* All that is lent here, and its bytes before a call. */
static struct {
    struct filter empty, a, to;
    struct builder builder;
    uint64_t reader[ZAMGULEKT_READER];
    uint8_t row[LONGEST];
    uint8_t text[ZAMGULEKT_TEXT];
    uint64_t answer[ZAMGULEKT_SIZES];
} lent, before;

static int bad;

/* What a filter or a builder takes of a call's parameters: whole, or with one area null. */
#define FILTER(f) (f).record, (f).top, TOP, (f).blocks, BLOCKS
#define NO_TOP(f) (f).record, NULL, 0, (f).blocks, BLOCKS
#define NO_BLOCKS(f) (f).record, (f).top, TOP, NULL, 0
#define BUILDER(b) (b).record, (b).pending, 2 * TOP, (b).bits, BLOCKS
#define NO_PENDING(b) (b).record, NULL, 0, (b).bits, BLOCKS
#define NO_BITS(b) (b).record, (b).pending, 2 * TOP, NULL, 0

static void holds(const char *what, int it_does)
{
    if (it_does)
        return;
    printf("wrong: %s\n", what);
    bad = 1;
}

static int unchanged(void)
{
    return memcmp(&before, &lent, sizeof lent) == 0;
}

static void answered(const char *what, uint8_t expected, uint8_t number)
{
    holds(what, number == expected);
    if (number != 0)
        holds("a refusal has changed memory", unchanged());
}

/* CALL sees that a call returns the number, and changes nothing where that is a refusal's. */
#define CALL(expected, ...) \
    (memcpy(&before, &lent, sizeof lent), answered(#__VA_ARGS__, expected, __VA_ARGS__))
#define NULL_CALL(expected, function, parameter, ...) \
    (puts(#function " " #parameter), CALL(expected, function(__VA_ARGS__)))

/* The filters of the empty set and of 13 to 1, the row of the latter, and a builder. */
static void make(void)
{
    static const uint32_t list[] = {1, 2, 3, 4, 5, 6, 7, 8, 9, 10, 11, 12, 13};
    memset(&lent, 170, sizeof lent);
    CALL(0, zamgulekt_empty(7, FILTER(lent.empty)));
    CALL(0, zamgulekt_empty(7, FILTER(lent.a)));
    CALL(0, zamgulekt_toggle(FILTER(lent.a), list, 13));
    CALL(0, zamgulekt_write(FILTER(lent.a), lent.row, LONGEST, lent.answer));
    CALL(0, zamgulekt_builder_new(7, 4, BUILDER(lent.builder)));
    CALL(0, zamgulekt_builder_push(BUILDER(lent.builder), list, 13));
}

static void null_areas_of_one(void)
{
    uint64_t *answer = lent.answer;
    const uint32_t list[] = {5};
    NULL_CALL(3, zamgulekt_empty, top, 7, NO_TOP(lent.to));
    NULL_CALL(3, zamgulekt_empty, blocks, 7, NO_BLOCKS(lent.to));
    NULL_CALL(3, zamgulekt_toggle, top, NO_TOP(lent.a), list, 1);
    NULL_CALL(3, zamgulekt_toggle, blocks, NO_BLOCKS(lent.a), list, 1);
    NULL_CALL(3, zamgulekt_exact_count, top, NO_TOP(lent.a), answer);
    NULL_CALL(3, zamgulekt_exact_count, blocks, NO_BLOCKS(lent.a), answer);
    NULL_CALL(3, zamgulekt_limited_count, top, NO_TOP(lent.a), answer);
    NULL_CALL(3, zamgulekt_limited_count, blocks, NO_BLOCKS(lent.a), answer);
    NULL_CALL(3, zamgulekt_masked_sort_key, top, NO_TOP(lent.a), 1, 1, answer);
    NULL_CALL(3, zamgulekt_masked_sort_key, blocks, NO_BLOCKS(lent.a), 1, 1, answer);
    NULL_CALL(3, zamgulekt_write, top, NO_TOP(lent.a), lent.row, LONGEST, answer);
    NULL_CALL(3, zamgulekt_write, blocks, NO_BLOCKS(lent.a), lent.row, LONGEST, answer);
    NULL_CALL(3, zamgulekt_read, top, 7, lent.row, 33, NO_TOP(lent.to));
    NULL_CALL(3, zamgulekt_read, blocks, 7, lent.row, 33, NO_BLOCKS(lent.to));
}

/* The four areas that a call on two filters reads. */
#define NULL_PAIR(function, ...) \
    (NULL_CALL(3, function, top, NO_TOP(lent.a), FILTER(lent.empty), __VA_ARGS__), \
     NULL_CALL(3, function, blocks, NO_BLOCKS(lent.a), FILTER(lent.empty), __VA_ARGS__), \
     NULL_CALL(3, function, top2, FILTER(lent.a), NO_TOP(lent.empty), __VA_ARGS__), \
     NULL_CALL(3, function, blocks2, FILTER(lent.a), NO_BLOCKS(lent.empty), __VA_ARGS__))

static void null_areas_of_two(void)
{
    struct filter *a = &lent.a, *empty = &lent.empty;
    NULL_PAIR(zamgulekt_exact_difference, lent.answer);
    NULL_PAIR(zamgulekt_limited_difference, lent.answer);
    NULL_PAIR(zamgulekt_cmp_masked, 1, 1, lent.answer);
    NULL_PAIR(zamgulekt_symmetric_difference, FILTER(lent.to));
    NULL_CALL(3, zamgulekt_symmetric_difference, to_top, FILTER(*a), FILTER(*empty),
              NO_TOP(lent.to));
    NULL_CALL(3, zamgulekt_symmetric_difference, to_blocks, FILTER(*a), FILTER(*empty),
              NO_BLOCKS(lent.to));
}

static void null_areas_of_builders(void)
{
    const uint32_t list[] = {5};
    struct builder *b = &lent.builder;
    NULL_CALL(3, zamgulekt_builder_new, pending, 7, 0, NO_PENDING(*b));
    NULL_CALL(3, zamgulekt_builder_new, bits, 7, 0, NO_BITS(*b));
    NULL_CALL(3, zamgulekt_builder_push, pending, NO_PENDING(*b), list, 1);
    NULL_CALL(3, zamgulekt_builder_push, bits, NO_BITS(*b), list, 1);
    NULL_CALL(3, zamgulekt_builder_raise, pending, NO_PENDING(*b), 5);
    NULL_CALL(3, zamgulekt_builder_raise, bits, NO_BITS(*b), 5);
    NULL_CALL(3, zamgulekt_builder_finish, pending, NO_PENDING(*b), FILTER(lent.to));
    NULL_CALL(3, zamgulekt_builder_finish, bits, NO_BITS(*b), FILTER(lent.to));
    NULL_CALL(3, zamgulekt_builder_finish, top, BUILDER(*b), NO_TOP(lent.to));
    NULL_CALL(3, zamgulekt_builder_finish, blocks, BUILDER(*b), NO_BLOCKS(lent.to));
}

static void null_lists(void)
{
    NULL_CALL(0, zamgulekt_toggle, list, FILTER(lent.a), NULL, 0);
    holds("an empty list flips nothing", unchanged());
    NULL_CALL(0, zamgulekt_builder_push, list, BUILDER(lent.builder), NULL, 0);
    holds("an empty list pushes nothing", unchanged());
}

static void null_rows(void)
{
    uint64_t *answer = lent.answer;
    NULL_CALL(0, zamgulekt_write, row, FILTER(lent.empty), NULL, 0, answer);
    holds("the empty row has no bytes", answer[0] == 0);
    CALL(3, zamgulekt_write(FILTER(lent.a), NULL, 0, answer));
    NULL_CALL(0, zamgulekt_read, row, 7, NULL, 0, FILTER(lent.to));
    holds("the empty row is read", memcmp(&lent.to, &lent.empty, sizeof lent.to) == 0);
    answer[0] = 9;
    NULL_CALL(0, zamgulekt_open, row, 7, NULL, 0, answer);
    holds("the empty row is opened", answer[0] == 0);
    NULL_CALL(0, zamgulekt_cmp_rows, first, 7, 1, 1, NULL, 0, lent.row, 33, answer);
    holds("the empty row is less", answer[0] == ZAMGULEKT_LESS);
    NULL_CALL(0, zamgulekt_cmp_rows, second, 7, 1, 1, lent.row, 33, NULL, 0, answer);
    holds("a row is greater than the empty one", answer[0] == ZAMGULEKT_GREATER);
    NULL_CALL(0, zamgulekt_greater_row, first, 7, 1, 1, NULL, 0, lent.row, 33, answer);
    holds("the second row is the greater", answer[0] == ZAMGULEKT_SECOND);
    NULL_CALL(0, zamgulekt_greater_row, second, 7, 1, 1, lent.row, 33, NULL, 0, answer);
    holds("the first row is the greater", answer[0] == ZAMGULEKT_FIRST);
    CALL(0, zamgulekt_row_reader_new(7, 0, lent.reader));
    NULL_CALL(0, zamgulekt_row_reader_step, row, lent.reader, NULL, 0, answer);
    holds("the empty row ends at once", answer[ZAMGULEKT_STEP_GIVEN] == 0);
    answer[0] = 9;
    NULL_CALL(0, zamgulekt_step_at, row, NULL, 0, 7, 0, answer);
    holds("the empty row ends at place 0", answer[ZAMGULEKT_STEPPED_GIVEN] == 0);
}

static void null_texts(void)
{
    NULL_CALL(0, zamgulekt_compare_text, input, NULL, 0, lent.text, ZAMGULEKT_TEXT, lent.answer);
    holds("the empty input lacks its first line",
          lent.answer[0] == 13 && memcmp(lent.text, "refused 11 1\n", 13) == 0);
    NULL_CALL(3, zamgulekt_compare_text, text, NULL, 0, NULL, 0, lent.answer);
}

static void refusals_of_filters(void)
{
    static struct {
        uint64_t record[ZAMGULEKT_FILTER];
        uint32_t top[64];
        uint64_t blocks[1040];
    } other;
    const uint32_t list[] = {5, 8320};
    struct filter *a = &lent.a;
    struct builder *b = &lent.builder;
    CALL(1, zamgulekt_sizes_of(8, lent.answer));
    CALL(1, zamgulekt_empty(263, FILTER(*a)));
    CALL(2, zamgulekt_toggle(FILTER(*a), list, 2));
    CALL(2, zamgulekt_builder_new(7, 8321, BUILDER(*b)));
    CALL(2, zamgulekt_builder_push(BUILDER(*b), list, 2));
    CALL(2, zamgulekt_builder_raise(BUILDER(*b), 8321));
    CALL(6, zamgulekt_cmp_masked(FILTER(*a), FILTER(lent.empty), 8, 0, lent.answer));
    CALL(7, zamgulekt_masked_sort_key(FILTER(*a), 8, 3, lent.answer));
    CALL(0, zamgulekt_empty(10, other.record, other.top, 64, other.blocks, 1040));
    CALL(9, zamgulekt_symmetric_difference(FILTER(*a), other.record, other.top, 64, other.blocks,
                                           1040, FILTER(lent.to)));
    a->record[ZAMGULEKT_FILTER_BOUNDARY]++;
    CALL(8, zamgulekt_exact_count(FILTER(*a), lent.answer));
    b->record[ZAMGULEKT_BUILDER_COUNT]--;
    CALL(8, zamgulekt_builder_finish(BUILDER(*b), FILTER(lent.to)));
}

static void refusals_of_rows(void)
{
    CALL(3, zamgulekt_write(FILTER(lent.a), lent.row, 32, lent.answer));
    CALL(3, zamgulekt_compare_text(NULL, 0, lent.text, 12, lent.answer));
    CALL(4, zamgulekt_read(7, lent.row, 32, FILTER(lent.to)));
    CALL(5, zamgulekt_read(7, lent.row, 24, FILTER(lent.to)));
    CALL(5, zamgulekt_open(7, lent.row, 24, lent.answer));
    CALL(5, zamgulekt_row_reader_step(lent.reader, lent.row, 24, lent.answer));
    CALL(5, zamgulekt_step_at(lent.row, 24, 7, 0, lent.answer));
    CALL(6, zamgulekt_cmp_rows(7, 0, 64, lent.row, 33, lent.row, 33, lent.answer));
    CALL(7, zamgulekt_greater_row(7, 8, 3, lent.row, 33, lent.row, 33, lent.answer));
}

static void lent_twice(void)
{
    struct filter *a = &lent.a;
    uint64_t *answer = lent.answer;
    answer[0] = answer[1] = 9;
    CALL(0, zamgulekt_exact_difference(FILTER(*a), FILTER(*a), answer));
    holds("a filter has no difference to itself", answer[0] == 0);
    CALL(0, zamgulekt_limited_difference(FILTER(*a), FILTER(*a), answer));
    holds("nor a limited one", answer[0] == 0 && answer[1] == 0);
    CALL(0, zamgulekt_cmp_masked(FILTER(*a), FILTER(*a), 1, 1, answer));
    holds("a filter equals itself", answer[0] == ZAMGULEKT_EQUAL);
    CALL(0, zamgulekt_symmetric_difference(FILTER(*a), FILTER(*a), FILTER(lent.to)));
    holds("what differs is empty", memcmp(&lent.to, &lent.empty, sizeof lent.to) == 0);
    CALL(0, zamgulekt_cmp_rows(7, 1, 1, lent.row, 33, lent.row, 33, answer));
    holds("a row equals itself", answer[0] == ZAMGULEKT_EQUAL);
    CALL(0, zamgulekt_greater_row(7, 1, 1, lent.row, 33, lent.row, 33, answer));
    holds("of two equal rows the first is taken", answer[0] == ZAMGULEKT_FIRST);
}

static void cells_of_filters(void)
{
    const uint64_t *record = lent.a.record, *builder = lent.builder.record;
    uint64_t *answer = lent.answer;
    holds("a filter's record", record[ZAMGULEKT_FILTER_CONFIG] == 7 &&
          record[ZAMGULEKT_FILTER_COUNT] == TOP && record[ZAMGULEKT_FILTER_BOUNDARY] == 2);
    holds("a builder's record", builder[ZAMGULEKT_BUILDER_CONFIG] == 7 &&
          builder[ZAMGULEKT_BUILDER_SPLIT] == 4 && builder[ZAMGULEKT_BUILDER_COUNT] == 10);
    CALL(0, zamgulekt_builder_finish(BUILDER(lent.builder), FILTER(lent.to)));
    holds("what is built is what is toggled", memcmp(&lent.to, &lent.a, sizeof lent.to) == 0);
    CALL(0, zamgulekt_limited_count(FILTER(lent.a), answer));
    holds("a limited count", answer[ZAMGULEKT_LIMITED_COUNT] == 13 &&
          answer[ZAMGULEKT_LIMITED_BOUND] == 0);
    CALL(0, zamgulekt_masked_sort_key(FILTER(lent.a), 1, 1, answer));
    holds("a key", answer[0] == (13ULL << 50 | 12ULL << 36 | 11ULL << 22 | 10 << 8));
}

static void cells_of_the_rest(void)
{
    static const uint64_t row_of_7[] = {7, TOP, 2, 112, 8320, BLOCKS, 14, 11, LONGEST};
    uint64_t *answer = lent.answer;
    CALL(0, zamgulekt_sizes_of(7, answer));
    holds("sizes", memcmp(answer, row_of_7, sizeof row_of_7) == 0 &&
          answer[ZAMGULEKT_SIZES_LEVEL] == 7 && answer[ZAMGULEKT_SIZES_TOP] == TOP &&
          answer[ZAMGULEKT_SIZES_ENTRY] == 2 && answer[ZAMGULEKT_SIZES_BUDGET] == 112 &&
          answer[ZAMGULEKT_SIZES_BUCKETS] == 8320 && answer[ZAMGULEKT_SIZES_BLOCKS] == BLOCKS &&
          answer[ZAMGULEKT_SIZES_BITS] == 14 && answer[ZAMGULEKT_SIZES_WINDOW] == 11 &&
          answer[ZAMGULEKT_SIZES_LONGEST] == LONGEST);
    CALL(0, zamgulekt_row_reader_new(7, 11, lent.reader));
    CALL(0, zamgulekt_row_reader_step(lent.reader, lent.row, 33, answer));
    holds("a reader", lent.reader[ZAMGULEKT_READER_CONFIG] == 7 &&
          lent.reader[ZAMGULEKT_READER_PLACE] == 12);
    holds("a step", answer[ZAMGULEKT_STEP_GIVEN] == 1 && answer[ZAMGULEKT_STEP_BUCKET] == 2);
    CALL(0, zamgulekt_step_at(lent.row, 33, 7, 12, answer));
    holds("a step from a place", answer[ZAMGULEKT_STEPPED_GIVEN] == 1 &&
          answer[ZAMGULEKT_STEPPED_BUCKET] == 1 && answer[ZAMGULEKT_STEPPED_PLACE] == 13);
}

int main(void)
{
    /* so that the last line tells where a call does not return */
    setvbuf(stdout, NULL, _IONBF, 0);
    make();
    cells_of_filters();
    cells_of_the_rest();
    lent_twice();
    null_areas_of_one();
    null_areas_of_two();
    null_areas_of_builders();
    null_lists();
    null_rows();
    null_texts();
    refusals_of_rows();
    refusals_of_filters();
    return bad;
}
