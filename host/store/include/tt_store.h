/* Stored buffers of packed token trees: one leaf exchanged, the size before that, and a buffer put in order. Link with libstore.a, which
 * tools/static-library store writes (x86-64). */
#ifndef TT_STORE_H
#define TT_STORE_H

#include <stddef.h>
#include <stdint.h>

#ifdef __cplusplus
extern "C" {
#endif

/* How many words the three runs of work words must have at least for so many trees, and what is always enough for the outputs. */
#define TT_LIST_WORK(trees) (16 * (size_t)(trees) + 16)
#define TT_TABLE_WORK(trees) (10 * (size_t)(trees) + 10)
#define TT_COUNT_WORK(trees) (6 * (size_t)(trees) + 6)
#define TT_MOST_BYTES(trees) (33 * (size_t)(trees))
#define TT_MOST_PART_WORDS(trees) (6 * (size_t)(trees))
#define TT_MOST_SYMBOLS(trees) ((size_t)(trees))

/* The list of the buffer b with another leaf as tree `number`, written over tables made afresh.
 *
 * Read: the buffer, its tree count, its tables, three words a part (the root's two last) and one a symbol; the leaf's 13 list words. No
 * run may lie over one that is written. Nothing is kept between calls: threads may call it at once, on runs of their own.
 *
 * 0: out, out_parts and out_symbols begin with the new buffer and tables, behind which they are unchanged; told has how many bytes,
 * parts (three words each) and symbols these are. There are as many trees as before. What the work words hold is open up to the lengths
 * above, behind which they are unchanged.
 *
 * Else the number of the refusal, and told has the tree that it names and two zeros; out, out_parts and out_symbols are unchanged:
 * - the check's, at its tree: 1, 2, 3, 4, 7, 8 or 9;
 * - 10 at `number`: at or past the tree count, or a subtree's, so always for 0;
 * - 2 at `number`: the words are no leaf's, or a field is out of range;
 * - 6 at 0: first for list, tables or counts shorter than above, then for an output that is too short. Work words are unchanged but for
 *   a short output. */
uint32_t tt_set_token(const uint8_t *b, size_t b_len, uint32_t trees, const uint32_t *parts, size_t parts_len,
                      const uint32_t *symbols, size_t symbols_len, uint32_t number, const uint32_t leaf[13], uint32_t *list,
                      size_t list_len, uint32_t *tables, size_t tables_len, uint32_t *counts, size_t counts_len, uint8_t *out,
                      size_t out_len, uint32_t *out_parts, size_t out_parts_len, uint32_t *out_symbols, size_t out_symbols_len,
                      size_t told[3]);

/* What tt_set_token would answer, with outputs that have room enough. Nothing is written but work words and told.
 *
 * Read: as by tt_set_token. No run may lie over one that is written. Nothing is kept between calls: threads may call it at once, on runs
 * of their own.
 *
 * 0: told has how many bytes, parts (three words each) and symbols there would be. tt_set_token of the same buffer, tables, number and
 * leaf, with work words that are long enough and outputs that hold as much, answers 0, tells the same and writes as much. What the work
 * words hold is open up to the lengths above, behind which they are unchanged. How storage would change is the difference from b_len,
 * parts_len / 3 and symbols_len.
 *
 * Else the number of the refusal that tt_set_token would give, and told has the tree that it names and two zeros: the check's, 10, 2; 6
 * at 0 only for list, tables or counts shorter than above. Work words are unchanged. */
uint32_t tt_preview(const uint8_t *b, size_t b_len, uint32_t trees, const uint32_t *parts, size_t parts_len, const uint32_t *symbols,
                    size_t symbols_len, uint32_t number, const uint32_t leaf[13], uint32_t *list, size_t list_len, uint32_t *tables,
                    size_t tables_len, uint32_t *counts, size_t counts_len, size_t told[3]);

/* The list of the buffer b in the writer's bytes over the same tables: every span, symbol, literal and subtree in the form that the
 * writer takes, every index that of its entry's first place. Put in order again, these bytes stay. Two buffers over the same tables
 * give the same bytes exactly if they hold the same list.
 *
 * Read: the buffer, its tree count, its tables, three words a part (the root's two last) and one a symbol. `tables` is asked for its
 * length alone: the work words are those of tt_set_token, but no tables are made. No run may lie over one that is written. Nothing is
 * kept between calls: threads may call it at once, on runs of their own.
 *
 * 0: out begins with the new buffer, behind which it is unchanged; told has how many bytes that is, at most b_len.
 * Trees and tables are as before. What list and counts hold is open up to the lengths above, behind which they are unchanged.
 *
 * Else the number of the refusal, and told has the tree that it names; out is unchanged:
 * - the check's, at its tree: 1, 2, 3, 4, 7, 8 or 9;
 * - 6 at 0: first for list, tables or counts shorter than above, then for out shorter than the new buffer, which b_len bytes
 *   never are. list and counts are unchanged but for a short out. */
uint32_t tt_tidy(const uint8_t *b, size_t b_len, uint32_t trees, const uint32_t *parts, size_t parts_len, const uint32_t *symbols,
                 size_t symbols_len, uint32_t *list, size_t list_len, const uint32_t *tables, size_t tables_len, uint32_t *counts,
                 size_t counts_len, uint8_t *out, size_t out_len, size_t told[1]);

#ifdef __cplusplus
}
#endif

#endif
