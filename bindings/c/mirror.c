/*
 * Our archive and a mirror keep a row of the same table: how far do the two agree, and whose row is
 * the greater? Writes what bindings/mirror.stdout holds.
 */
#include <stdio.h>
#include <stdlib.h>

#include "zamgulekt.h"

#define CONFIG 7

struct filter {
    uint64_t record[ZAMGULEKT_FILTER];
    uint32_t *top;
    size_t top_len;
    uint64_t *blocks;
    size_t blocks_len;
};

struct row {
    uint8_t *bytes;
    size_t length;
};

static void *room(size_t cells, size_t size)
{
    void *memory = calloc(cells, size);
    if (memory == NULL) {
        fputs("no memory\n", stderr);
        exit(EXIT_FAILURE);
    }
    return memory;
}

/* For calls that nothing here makes refuse. */
static void must(uint8_t number)
{
    if (number != 0) {
        fprintf(stderr, "refused %u\n", (unsigned)number);
        exit(EXIT_FAILURE);
    }
}

static struct filter filter_of(const uint32_t *list, size_t list_len)
{
    struct filter f;
    uint64_t sizes[ZAMGULEKT_SIZES];
    must(zamgulekt_sizes_of(CONFIG, sizes));
    f.top_len = sizes[ZAMGULEKT_SIZES_TOP];
    f.top = room(f.top_len, sizeof *f.top);
    f.blocks_len = sizes[ZAMGULEKT_SIZES_BLOCKS];
    f.blocks = room(f.blocks_len, sizeof *f.blocks);
    must(zamgulekt_empty(CONFIG, f.record, f.top, f.top_len, f.blocks, f.blocks_len));
    must(zamgulekt_toggle(f.record, f.top, f.top_len, f.blocks, f.blocks_len, list, list_len));
    return f;
}

static struct row row_of(const struct filter *f)
{
    struct row row;
    uint64_t sizes[ZAMGULEKT_SIZES], length;
    must(zamgulekt_sizes_of(CONFIG, sizes));
    row.bytes = room(sizes[ZAMGULEKT_SIZES_LONGEST], 1);
    must(zamgulekt_write(f->record, f->top, f->top_len, f->blocks, f->blocks_len,
                         row.bytes, sizes[ZAMGULEKT_SIZES_LONGEST], &length));
    row.length = length;
    return row;
}

static void show(const char *name, const struct filter *f, const struct row *row)
{
    uint64_t count;
    must(zamgulekt_exact_count(f->record, f->top, f->top_len, f->blocks, f->blocks_len, &count));
    printf("%s: configuration %u, %u buckets, boundary %u, row of %u bytes\n", name,
           (unsigned)f->record[ZAMGULEKT_FILTER_CONFIG], (unsigned)count,
           (unsigned)f->record[ZAMGULEKT_FILTER_BOUNDARY], (unsigned)row->length);
}

static void show_difference(const struct filter *a, const struct filter *b)
{
    uint64_t count;
    must(zamgulekt_exact_difference(a->record, a->top, a->top_len, a->blocks, a->blocks_len,
                                    b->record, b->top, b->top_len, b->blocks, b->blocks_len,
                                    &count));
    printf("difference: %u\n", (unsigned)count);
}

static void show_buckets(const struct row *row)
{
    uint64_t reader[ZAMGULEKT_READER], step[ZAMGULEKT_STEP];
    must(zamgulekt_row_reader_new(CONFIG, 0, reader));
    must(zamgulekt_row_reader_step(reader, row->bytes, row->length, step));
    while (step[ZAMGULEKT_STEP_GIVEN]) {
        printf(" %u", (unsigned)step[ZAMGULEKT_STEP_BUCKET]);
        must(zamgulekt_row_reader_step(reader, row->bytes, row->length, step));
    }
    printf("\n");
}

/* Under mask 1 of size 1, which keeps every bucket. */
static void compare(const struct row *ours, const struct row *mirror)
{
    static const char *const words[] = {"less", "equal", "greater"};
    uint64_t order, which;
    must(zamgulekt_cmp_rows(CONFIG, 1, 1, ours->bytes, ours->length,
                            mirror->bytes, mirror->length, &order));
    printf("order: %s\n", words[order]);
    must(zamgulekt_greater_row(CONFIG, 1, 1, ours->bytes, ours->length,
                               mirror->bytes, mirror->length, &which));
    printf("buckets of the greater:");
    show_buckets(which == ZAMGULEKT_FIRST ? ours : mirror);
}

static void open_cut(const struct row *row)
{
    uint64_t count;
    uint8_t number = zamgulekt_open(CONFIG, row->bytes, 24, &count);
    if (number == 0)
        printf("cut at 24 bytes: %u buckets\n", (unsigned)count);
    else
        printf("cut at 24 bytes: refused %u\n", (unsigned)number);
}

int main(void)
{
    static const uint32_t list[] = {13, 12, 11, 10, 9, 8, 7, 6, 5, 4, 3, 2, 1};
    struct filter ours = filter_of(list + 1, 12), mirror = filter_of(list, 13);
    struct row our_row = row_of(&ours), mirror_row = row_of(&mirror);
    show("ours", &ours, &our_row);
    show("mirror", &mirror, &mirror_row);
    show_difference(&ours, &mirror);
    compare(&our_row, &mirror_row);
    open_cut(&mirror_row);
    free(ours.top);
    free(ours.blocks);
    free(mirror.top);
    free(mirror.blocks);
    free(our_row.bytes);
    free(mirror_row.bytes);
    return 0;
}
