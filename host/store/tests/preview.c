/* A root around `+`: the size with an ident in its place, then what is refused; then the ident put there, in outputs of just that size.
 * Prints the number and what is told for each. */
#include <stdio.h>
#include <stdlib.h>
#include <string.h>

#include "tt_store.h"

enum { TREES = 2, BYTES = 38, PARTS = 3, LIST = TT_LIST_WORK(TREES), TABLES = TT_TABLE_WORK(TREES), COUNTS = TT_COUNT_WORK(TREES) };

static const uint8_t plus[BYTES] = {0x04, 0x40, 0, 0, 1, 0, 0, 0, 0, 0, 0, 0, 0x1D, 0x08, 0x40, 0, 0, 1, 0,
                                    0,    0,    0, 0, 0, 0, 1, 0, 0, 0, 5, 0, 0,    0,    0x41, 0, 5, 0, 0x56};
static const uint32_t parts[3 * PARTS] = {7, 0, 0, 1, 0, 0, 2, 0, 0}, no_symbol;
static const uint32_t ident[13] = {1, 9, 0, 7, 0, 0, 10, 1, 0, 0, 0, 0, 0};

static struct {
    uint32_t list[LIST], tables[TABLES], counts[COUNTS];
} work, before;

static uint32_t told_of(uint32_t refusal, const size_t *told) {
    printf("%u: %u %u %u\n", (unsigned)refusal, (unsigned)told[0], (unsigned)told[1], (unsigned)told[2]);
    return refusal;
}

/* A leaf at a tree number, in the first bytes of the buffer, with so many work words. A refusal leaves them as they were. */
static void preview(size_t len, uint32_t number, const uint32_t *leaf, size_t list, size_t tables, size_t counts, size_t *told) {
    memset(&before, 0xAA, sizeof before);
    work = before;
    uint32_t refusal = tt_preview(plus, len, TREES, parts, 3 * PARTS, &no_symbol, 0, number, leaf, work.list, list, work.tables, tables,
                                  work.counts, counts, told);
    if (told_of(refusal, told) != 0 && memcmp(&work, &before, sizeof work) != 0) {
        exit(1);
    }
}

int main(void) {
    uint32_t subtree[13] = {3, 0, 0, 7, 0, 0, 10, 1, 7, 0, 0, 12, 1};
    size_t sizes[3], told[3];
    preview(BYTES, 1, ident, LIST, TABLES, COUNTS, sizes);
    preview(BYTES, 0, ident, LIST, TABLES, COUNTS, told);
    preview(BYTES, 2, ident, LIST, TABLES, COUNTS, told);
    preview(BYTES, 1, subtree, LIST, TABLES, COUNTS, told);
    preview(BYTES, 1, ident, LIST - 1, TABLES, COUNTS, told);
    preview(BYTES, 1, ident, LIST, TABLES - 1, COUNTS, told);
    preview(BYTES, 1, ident, LIST, TABLES, COUNTS - 1, told);
    preview(BYTES - 1, 1, ident, LIST, TABLES, COUNTS, told);
    uint8_t *out = malloc(sizes[0]);
    uint32_t *out_parts = malloc(3 * sizes[1] * sizeof *out_parts), *out_symbols = malloc(sizes[2] * sizeof *out_symbols);
    if (out == NULL || out_parts == NULL || out_symbols == NULL) {
        return 1;
    }
    uint32_t refusal = tt_set_token(plus, BYTES, TREES, parts, 3 * PARTS, &no_symbol, 0, 1, ident, work.list, LIST, work.tables, TABLES,
                                    work.counts, COUNTS, out, sizes[0], out_parts, 3 * sizes[1], out_symbols, sizes[2], told);
    free(out);
    free(out_parts);
    free(out_symbols);
    return told_of(refusal, told) != 0 || memcmp(told, sizes, sizeof told) != 0;
}
