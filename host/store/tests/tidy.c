/* A root around `+`, whose span has twelve bytes where four would do: put in order, and again; then what is refused, by every
 * row. Prints how many bytes were written, or the number and the tree. Status 1 if these are other bytes, or a lent run has
 * changed where it must not. */
#include <stdbool.h>
#include <stdio.h>
#include <string.h>

#include "tt_store.h"

/* Two trees; as many as, each in the one before, are too deep by one; words behind those that are due. */
enum { TREES = 2, DEEP = 257, BEHIND = 5, NOISE = 0xAA };
enum { BYTES = 46, TIDY = 38, PART_WORDS = 9 };

static const uint8_t loose[BYTES + 1] = {0x04, 0x40, 0,    0, 1, 0, 0, 0, 0, 0, 0, 0, 0x1D, 0x08, 0x40, 0,
                                         0,    1,    0,    0, 0, 0, 0, 0, 0, 1, 0, 0, 0,    13,   0,    0,
                                         0,    0x41, 0x40, 5, 0, 1, 0, 0, 0, 0, 0, 0, 0,    0x56};
static const uint8_t plus[5] = {0x41, 0, 5, 0, 0x56};
static const uint32_t parts[PART_WORDS] = {7, 0, 0, 1, 0, 0, 2, 0, 0}, no_symbol;

static struct runs {
    uint32_t list[TT_LIST_WORK(TREES) + BEHIND], tables[TT_TABLE_WORK(TREES)], counts[TT_COUNT_WORK(TREES) + BEHIND];
    uint8_t out[TT_MOST_BYTES(TREES)];
} lent;

/* How much of each run is lent. */
struct room {
    size_t list, tables, counts, out;
};
static const struct room ample = {TT_LIST_WORK(TREES) + BEHIND, TT_TABLE_WORK(TREES), TT_COUNT_WORK(TREES) + BEHIND,
                                  sizeof lent.out};

static bool wrong;

/* Whether the runs are what they were but for the bytes written and, where the work began, the work words that are due. */
static bool kept(bool worked, size_t written) {
    static struct runs before;
    memset(&before, NOISE, sizeof before);
    if (worked) {
        memcpy(before.list, lent.list, TT_LIST_WORK(TREES) * sizeof *before.list);
        memcpy(before.counts, lent.counts, TT_COUNT_WORK(TREES) * sizeof *before.counts);
    }
    memcpy(before.out, lent.out, written);
    return memcmp(&lent, &before, sizeof lent) == 0;
}

static void tidy(const uint8_t *b, size_t len, uint32_t trees, size_t part_words, struct room room) {
    size_t told[1];
    memset(&lent, NOISE, sizeof lent);
    uint32_t refusal = tt_tidy(b, len, trees, parts, part_words, &no_symbol, 0, lent.list, room.list, lent.tables, room.tables,
                               lent.counts, room.counts, lent.out, room.out, told);
    if (refusal == 0) {
        printf("%u bytes\n", (unsigned)told[0]);
    } else {
        printf("%u at %u\n", (unsigned)refusal, (unsigned)told[0]);
    }
    wrong |= !kept(refusal == 0 || room.out < TIDY, refusal == 0 ? told[0] : 0);
}

/* The buffer with one byte changed. */
static void tidy_with(size_t place, uint8_t byte) {
    uint8_t changed[BYTES];
    memcpy(changed, loose, BYTES);
    changed[place] = byte;
    tidy(changed, BYTES, TREES, PART_WORDS, ample);
}

static void too_deep(void) {
    uint8_t deep[33 + 7 * (DEEP - 1)] = {0}, parentheses[7] = {0xC0, 0x80, 2, 0, 0, 0, 0};
    memcpy(deep, loose, 25);
    deep[26] = 1;
    for (size_t i = 0; i < DEEP - 1; i++) {
        parentheses[5] = (uint8_t)(DEEP - 2 - i);
        memcpy(deep + 33 + 7 * i, parentheses, 7);
    }
    tidy(deep, sizeof deep, DEEP, PART_WORDS, ample);
}

static void refused_by_the_check(void) {
    tidy(loose, BYTES, TREES, PART_WORDS - 1, ample);
    /* the kind of the root */
    tidy_with(12, 0x25);
    /* its count */
    tidy_with(25, 0);
    too_deep();
    tidy(loose, BYTES - 1, TREES, PART_WORDS, ample);
    /* one of its parts for the punct */
    tidy_with(33, 0x45);
    tidy(loose, BYTES + 1, TREES, PART_WORDS, ample);
    /* its children bytes */
    tidy_with(29, 12);
}

static void short_runs(void) {
    struct room room[4] = {ample, ample, ample, ample};
    room[0].list = TT_LIST_WORK(TREES) - 1;
    room[1].tables = TT_TABLE_WORK(TREES) - 1;
    room[2].counts = TT_COUNT_WORK(TREES) - 1;
    room[3].out = TIDY - 1;
    for (size_t i = 0; i < 4; i++) {
        tidy(loose, BYTES, TREES, PART_WORDS, room[i]);
    }
}

int main(void) {
    uint8_t first[TIDY];
    tidy(loose, BYTES, TREES, PART_WORDS, ample);
    memcpy(first, lent.out, TIDY);
    /* of the root only the children bytes are others */
    wrong |= memcmp(first, loose, 29) != 0 || first[29] != 5 || memcmp(first + 33, plus, 5) != 0;
    tidy(first, TIDY, TREES, PART_WORDS, (struct room){TT_LIST_WORK(TREES), TT_TABLE_WORK(TREES), TT_COUNT_WORK(TREES), TIDY});
    wrong |= memcmp(lent.out, first, TIDY) != 0;
    refused_by_the_check();
    short_runs();
    return wrong;
}
