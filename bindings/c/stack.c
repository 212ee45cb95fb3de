/*
 * Measures the stack that each call of include/zamgulekt.h takes. The call runs on a stack of its
 * own, whose cells all hold the same number before it; the lowest cell that holds another after it
 * shows how deep it went. Its arguments on the stack and its return address count too. Link with
 * -Wl,-z,now: otherwise the dynamic linker binds memcpy during a call, and its stack counts too.
 *
 * Writes `NAME BYTES` for each call, the most that was seen, and `wrong: ...` if that is more than
 * the header says, or if a call refuses what it should answer, or answers what it should refuse.
 */
#define _XOPEN_SOURCE 600

#include <stdio.h>
#include <stdlib.h>
#include <string.h>
#include <ucontext.h>

#include "zamgulekt.h"

/* The sizes of configuration 13, the largest. */
#define TOP 384
#define BUCKETS 532480
#define BLOCKS 8320
#define LONGEST 68049

struct filter {
    uint64_t record[ZAMGULEKT_FILTER];
    uint32_t top[TOP];
    uint64_t blocks[BLOCKS];
};

struct builder {
    uint64_t record[ZAMGULEKT_BUILDER];
    uint32_t pending[2 * TOP];
    uint64_t bits[BLOCKS];
};

struct row {
    uint8_t bytes[LONGEST];
    uint64_t length;
};

/* All that the calls are lent. */
static uint64_t config, mask;
static size_t size, split, place, top_len, blocks_len, list_len, row_len, input_len, text_len;
static struct filter a, b, to;
static struct builder builder, fresh;
static struct row first, second;
static uint32_t list[BUCKETS];
static uint8_t row[LONGEST], input[4 * LONGEST + 64], text[ZAMGULEKT_TEXT];
static uint64_t reader[ZAMGULEKT_READER], answer[ZAMGULEKT_SIZES];

static uint64_t sizes[ZAMGULEKT_SIZES];
static int bad;

#define FILTER(f) (f).record, (f).top, top_len, (f).blocks, blocks_len
#define BUILDER(b) (b).record, (b).pending, 2 * top_len, (b).bits, blocks_len
#define ROW(r) (r).bytes, (r).length

#define CALLS(CALL) \
    CALL(zamgulekt_sizes_of, config, answer) \
    CALL(zamgulekt_empty, config, FILTER(to)) \
    CALL(zamgulekt_toggle, FILTER(a), list, list_len) \
    CALL(zamgulekt_symmetric_difference, FILTER(a), FILTER(b), FILTER(to)) \
    CALL(zamgulekt_builder_new, config, split, BUILDER(fresh)) \
    CALL(zamgulekt_builder_push, BUILDER(builder), list, list_len) \
    CALL(zamgulekt_builder_raise, BUILDER(builder), split) \
    CALL(zamgulekt_builder_finish, BUILDER(builder), FILTER(to)) \
    CALL(zamgulekt_exact_count, FILTER(a), answer) \
    CALL(zamgulekt_limited_count, FILTER(a), answer) \
    CALL(zamgulekt_exact_difference, FILTER(a), FILTER(b), answer) \
    CALL(zamgulekt_limited_difference, FILTER(a), FILTER(b), answer) \
    CALL(zamgulekt_cmp_masked, FILTER(a), FILTER(b), mask, size, answer) \
    CALL(zamgulekt_masked_sort_key, FILTER(a), mask, size, answer) \
    CALL(zamgulekt_write, FILTER(a), row, row_len, answer) \
    CALL(zamgulekt_read, config, ROW(first), FILTER(to)) \
    CALL(zamgulekt_open, config, ROW(first), answer) \
    CALL(zamgulekt_cmp_rows, config, mask, size, ROW(first), ROW(second), answer) \
    CALL(zamgulekt_greater_row, config, mask, size, ROW(first), ROW(second), answer) \
    CALL(zamgulekt_row_reader_new, config, place, reader) \
    CALL(zamgulekt_row_reader_step, reader, ROW(first), answer) \
    CALL(zamgulekt_step_at, ROW(first), config, place, answer) \
    CALL(zamgulekt_compare_text, input, input_len, text, text_len, answer)

#define NUMBERED(function, ...) AT_##function,
enum { CALLS(NUMBERED) COUNT };

#define WITHOUT_PARAMETERS(function, ...) \
    static uint8_t do_##function(void) { return function(__VA_ARGS__); }
CALLS(WITHOUT_PARAMETERS)

#define LISTED(function, ...) {#function, do_##function, 0},
static struct {
    const char *name;
    uint8_t (*call)(void);
    size_t bytes;
} calls[] = {CALLS(LISTED)};

/* ---- a call on a stack of its own */

#define CELLS (1 << 15)

static uint64_t stack[CELLS];
static ucontext_t outside, inside;
static uint8_t (*now)(void);
static uint8_t returned;

static void run(void)
{
    returned = now();
}

/* How deep the stack is with this function on it. */
static size_t depth(uint8_t (*function)(void))
{
    size_t i = 0;
    memset(stack, 0xaa, sizeof stack);
    now = function;
    if (getcontext(&inside) != 0)
        abort();
    inside.uc_stack.ss_sp = stack;
    inside.uc_stack.ss_size = sizeof stack;
    inside.uc_link = &outside;
    makecontext(&inside, run, 0);
    if (swapcontext(&outside, &inside) != 0)
        abort();
    while (i < CELLS && stack[i] == 0xaaaaaaaaaaaaaaaa)
        i++;
    return (CELLS - i) * sizeof *stack;
}

static uint8_t no_call(void)
{
    return 0;
}

/* What the call returns; notes what it takes. */
static uint8_t measured(size_t i)
{
    const size_t before = depth(no_call), bytes = depth(calls[i].call) - before;
    if (calls[i].bytes < bytes)
        calls[i].bytes = bytes;
    return returned;
}

/* ---- what is lent */

/* For calls that nothing here makes refuse. */
static void must(uint8_t number)
{
    if (number != 0) {
        printf("wrong: refused %u\n", (unsigned)number);
        exit(EXIT_FAILURE);
    }
}

/* The filter of n buckets, which stand in the list, from a place in an order of all buckets on. */
static void make_filter(struct filter *f, size_t from, size_t n)
{
    size_t i;
    for (i = 0; i < n; i++)
        list[i] = (from + i) * 7919 % sizes[ZAMGULEKT_SIZES_BUCKETS];
    must(zamgulekt_empty(config, FILTER(*f)));
    must(zamgulekt_toggle(FILTER(*f), list, n));
}

/* Two sets of n buckets, the same or half the same, and a builder and the rows of them. */
static void make(uint64_t new_config, size_t n, int same)
{
    config = new_config;
    must(zamgulekt_sizes_of(config, sizes));
    mask = size = 1;
    split = place = 0;
    top_len = TOP;
    blocks_len = BLOCKS;
    row_len = LONGEST;
    text_len = ZAMGULEKT_TEXT;
    make_filter(&a, 0, n);
    make_filter(&b, same ? 0 : n / 2, n);
    must(zamgulekt_builder_new(config, 0, BUILDER(builder)));
    must(zamgulekt_builder_push(BUILDER(builder), list, n));
    must(zamgulekt_write(FILTER(a), first.bytes, LONGEST, &first.length));
    must(zamgulekt_write(FILTER(b), second.bytes, LONGEST, &second.length));
    list_len = same ? 0 : n;
}

static void put(const char *words)
{
    size_t length = strlen(words);
    memcpy(input + input_len, words, length);
    input_len += length;
}

static void put_row(const struct row *r)
{
    static const char digits[] = "0123456789abcdef";
    size_t i;
    for (i = 0; i < r->length; i++) {
        input[input_len++] = digits[r->bytes[i] / 16];
        input[input_len++] = digits[r->bytes[i] % 16];
    }
    put("\n");
}

/* The same for the comparing program. */
static void make_input(void)
{
    char lines[64];
    sprintf(lines, "config %u\nmask %llu %u\n", (unsigned)config, (unsigned long long)mask,
            (unsigned)size);
    input_len = 0;
    put(lines);
    put_row(&first);
    put_row(&second);
}

/* ---- all calls on what is lent */

/* So many calls return the number, and all others 0. */
static void try_all(uint8_t number, unsigned how_many)
{
    unsigned i, zeros = 0, seen = 0;
    make_input();
    for (i = 0; i < COUNT; i++) {
        uint8_t it = measured(i);
        zeros += it == 0;
        seen += it == number;
    }
    if (seen == how_many && (number == 0 || zeros + seen == COUNT))
        return;
    printf("wrong: configuration %u: %u calls return %u, not %u; %u return 0\n", (unsigned)config,
           seen, (unsigned)number, how_many, zeros);
    bad = 1;
}

static void answered(void)
{
    try_all(0, COUNT);
    /* the comparing program has no configuration 13 */
    if (memcmp(text, config == 13 ? "refused" : "config ", 7) == 0)
        return;
    printf("wrong: configuration %u: the text begins with %.7s\n", (unsigned)config, (char *)text);
    bad = 1;
}

static void answers(uint64_t c, size_t n)
{
    int same;
    for (same = 0; same < 2; same++) {
        make(c, n, same);
        answered();
        make(c, n, same);
        mask = 1ULL << 62 | 1;
        size = 63;
        split = n;
        place = sizes[ZAMGULEKT_SIZES_TOP];
        answered();
        make(c, n, same);
        mask = 0;
        size = 5;
        split = sizes[ZAMGULEKT_SIZES_BUCKETS];
        place = n;
        /* below each boundary but 0 */
        list[0] = 0;
        list_len = 1;
        answered();
    }
}

static void refusals_of_lengths(uint64_t c, size_t n)
{
    make(c, n, 0);
    config = a.record[ZAMGULEKT_FILTER_CONFIG] = b.record[ZAMGULEKT_FILTER_CONFIG] = 8;
    builder.record[ZAMGULEKT_BUILDER_CONFIG] = 8;
    /* all but row_reader_new and compare_text */
    try_all(1, COUNT - 2);
    make(c, n, 0);
    top_len = sizes[ZAMGULEKT_SIZES_TOP] - 1;
    try_all(3, 15);
    make(c, n, 0);
    blocks_len = sizes[ZAMGULEKT_SIZES_BLOCKS] - 1;
    try_all(3, 15);
    make(c, n, 0);
    row_len = text_len = 0;
    try_all(3, 2);
}

static void refusals_of_filters(uint64_t c, size_t n)
{
    const size_t last = sizes[ZAMGULEKT_SIZES_BLOCKS] - 1;
    make(c, n, 0);
    a.top[1] = a.top[0];
    builder.record[ZAMGULEKT_BUILDER_COUNT] = 2 * TOP + 1;
    try_all(8, 12);
    make(c, n, 0);
    a.record[ZAMGULEKT_FILTER_BOUNDARY]++;
    builder.pending[0] = sizes[ZAMGULEKT_SIZES_BUCKETS];
    try_all(8, 12);
    make(c, n, 0);
    a.blocks[last] = builder.bits[last] = 1ULL << 63;
    try_all(8, 12);
    make(c, n, 0);
    b.blocks[last] = 1ULL << 63;
    try_all(8, 4);
    make(c, n, 0);
    memset(&b, 0, sizeof b);
    b.record[ZAMGULEKT_FILTER_CONFIG] = c == 7 ? 10 : 7;
    try_all(9, 4);
    make(c, n, 0);
    list[n - 1] = split = sizes[ZAMGULEKT_SIZES_BUCKETS] + 1;
    try_all(2, 4);
}

static void refusals_of_rows(uint64_t c, size_t n)
{
    const size_t width = sizes[ZAMGULEKT_SIZES_ENTRY];
    make(c, n, 0);
    size = 64;
    try_all(6, 4);
    make(c, n, 0);
    mask = 8;
    size = 3;
    try_all(7, 4);
    make(c, n, 0);
    first.length--;
    try_all(4, 6);
    make(c, n, 0);
    memset(first.bytes, 255, width);
    try_all(2, 6);
    make(c, n, 0);
    memset(first.bytes, 0, width);
    try_all(5, 6);
    make(c, n, 0);
    first.bytes[sizes[ZAMGULEKT_SIZES_TOP] * width] ^= 1;
    try_all(5, 6);
    make(c, n, 0);
    first.bytes[first.length - 1] = 255;
    try_all(5, 6);
    make(c, n, 0);
    second.bytes[second.length - 1] = 255;
    try_all(5, 2);
}

/* The comparing program's input cut, and with a wrong byte, at many places; and too long. */
static void refusals_of_texts(uint64_t c, size_t n)
{
    size_t i, whole;
    make(c, n, 0);
    make_input();
    whole = input_len;
    for (i = 0; i < whole; i += i / 8 + 1) {
        input_len = i;
        must(measured(AT_zamgulekt_compare_text));
        input_len = whole;
        input[i] ^= 64;
        must(measured(AT_zamgulekt_compare_text));
        input[i] ^= 64;
    }
    put("\n");
    must(measured(AT_zamgulekt_compare_text));
}

static void try_configuration(uint64_t c)
{
    size_t top, many;
    must(zamgulekt_sizes_of(c, sizes));
    top = sizes[ZAMGULEKT_SIZES_TOP];
    many = 20 * top;
    answers(c, 0);
    answers(c, 1);
    answers(c, top);
    answers(c, top + 1);
    answers(c, many);
    answers(c, sizes[ZAMGULEKT_SIZES_BUCKETS]);
    refusals_of_lengths(c, many);
    refusals_of_filters(c, many);
    refusals_of_rows(c, many);
    refusals_of_texts(c, many);
}

int main(void)
{
    size_t i;
    try_configuration(7);
    try_configuration(10);
    try_configuration(13);
    for (i = 0; i < COUNT; i++) {
        size_t most = i == AT_zamgulekt_compare_text ? ZAMGULEKT_TEXT_STACK : ZAMGULEKT_STACK;
        printf("%s %u\n", calls[i].name, (unsigned)calls[i].bytes);
        if (calls[i].bytes <= most)
            continue;
        printf("wrong: %s takes more than %u bytes\n", calls[i].name, (unsigned)most);
        bad = 1;
    }
    return bad;
}
