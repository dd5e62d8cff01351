/* A root around `+`: the punct becomes an ident, then what is refused. Prints the number and what is told for each. */
#include <stdio.h>
#include <string.h>

#include "tt_store.h"

enum { TREES = 2, BYTES = 38, PARTS = 3 };

static const uint8_t plus[BYTES] = {0x04, 0x40, 0, 0, 1, 0, 0, 0, 0, 0, 0, 0, 0x1D, 0x08, 0x40, 0, 0, 1, 0,
                                    0,    0,    0, 0, 0, 0, 1, 0, 0, 0, 5, 0, 0,    0,    0x41, 0, 5, 0, 0x56};
static const uint8_t name[5] = {0x42, 0, 5, 0, 0};
static const uint32_t parts[3 * PARTS] = {7, 0, 0, 1, 0, 0, 2, 0, 0}, no_symbol;
static const uint32_t ident[13] = {1, 9, 0, 7, 0, 0, 10, 1, 0, 0, 0, 0, 0};

static uint32_t work[TT_LIST_WORK(TREES) + TT_TABLE_WORK(TREES) + TT_COUNT_WORK(TREES)];
static uint8_t out[TT_MOST_BYTES(TREES)];
static uint32_t out_parts[TT_MOST_PART_WORDS(TREES)], out_symbols[TT_MOST_SYMBOLS(TREES)];

/* A leaf at a tree number, in the first bytes of the buffer, with so many work words for the list and so much room for bytes. */
static uint32_t exchange(size_t len, uint32_t number, const uint32_t *leaf, size_t list_words, size_t room) {
    uint32_t *tables = work + TT_LIST_WORK(TREES), *counts = tables + TT_TABLE_WORK(TREES);
    size_t told[3];
    uint32_t refusal = tt_set_token(plus, len, TREES, parts, 3 * PARTS, &no_symbol, 0, number, leaf, work, list_words, tables,
                                    TT_TABLE_WORK(TREES), counts, TT_COUNT_WORK(TREES), out, room, out_parts,
                                    TT_MOST_PART_WORDS(TREES), out_symbols, TT_MOST_SYMBOLS(TREES), told);
    printf("%u: %u %u %u\n", (unsigned)refusal, (unsigned)told[0], (unsigned)told[1], (unsigned)told[2]);
    return refusal;
}

int main(void) {
    uint32_t subtree[13] = {3, 0, 0, 7, 0, 0, 10, 1, 7, 0, 0, 12, 1};
    size_t list_words = TT_LIST_WORK(TREES);
    if (exchange(BYTES, 1, ident, list_words, sizeof out) != 0 || memcmp(out, plus, 33) != 0 || memcmp(out + 33, name, 5) != 0 ||
        memcmp(out_parts, parts, sizeof parts) != 0 || out_symbols[0] != 9) {
        return 1;
    }
    exchange(BYTES, 0, ident, list_words, sizeof out);
    exchange(BYTES, 2, ident, list_words, sizeof out);
    exchange(BYTES, 1, subtree, list_words, sizeof out);
    exchange(BYTES, 1, ident, list_words - 1, sizeof out);
    exchange(BYTES, 1, ident, list_words, BYTES - 1);
    exchange(BYTES - 1, 1, ident, list_words, sizeof out);
    return 0;
}
