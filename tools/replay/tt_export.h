/* The functions of libexport.a that the replay calls. A slice is a pointer and a length; &mut [u32; 256] is a pointer.
 * A reply at or above TT_REFUSED is a refusal: its number from bit 32 on, below it the tree number. For spans and symbols it is
 * the number alone. */
#ifndef TT_EXPORT_H
#define TT_EXPORT_H

#include <stdbool.h>
#include <stddef.h>
#include <stdint.h>

#define TT_REFUSED (UINT64_C(1) << 63)

uint64_t tt_encode_span(uint8_t *out, size_t len, size_t at, uint32_t index, uint32_t start, uint32_t length, uint32_t extra,
                        bool heavy);
uint64_t tt_encode_symbol(uint8_t *out, size_t len, size_t at, uint32_t tag, uint32_t index);
/* index, start, length, extra bits, and 1 if fewer bytes hold the first three */
uint64_t tt_decode_span(const uint8_t *b, size_t len, size_t at, uint32_t *words, size_t room);
uint64_t tt_decode_symbol(const uint8_t *b, size_t len, size_t at, uint32_t *words, size_t room);

uint64_t tt_tables(const uint32_t *list, size_t words, uint32_t *parts, size_t part_words, uint32_t *part_counts,
                   size_t part_count_words, uint32_t *symbols, size_t symbol_words, uint32_t *symbol_counts,
                   size_t symbol_count_words);
uint64_t tt_encode_list(const uint32_t *list, size_t words, const uint32_t *parts, size_t part_words, const uint32_t *symbols,
                        size_t symbol_words, uint32_t *work, size_t work_words, uint8_t *out, size_t len);

uint64_t tt_check_buffer(const uint8_t *b, size_t len, uint32_t trees, const uint32_t *parts, size_t part_words,
                         const uint32_t *symbols, size_t symbol_words);
/* A tree is 16 words: its list words, then its report: 1 or 0 for the opening and for the closing span, whether fewer bytes hold
 * it, and how many of its stored spans are so. A last span is 6: five, then 1 or 0. Two leaves are 32. */
uint64_t tt_walk(const uint8_t *b, size_t len, uint32_t trees, const uint32_t *parts, size_t part_words, const uint32_t *symbols,
                 size_t symbol_words, size_t place, uint32_t number, uint32_t left, bool skip, size_t *next, size_t next_words,
                 uint32_t *words, size_t room);
uint64_t tt_last_span(const uint8_t *b, size_t len, uint32_t trees, const uint32_t *parts, size_t part_words,
                      const uint32_t *symbols, size_t symbol_words, size_t place, uint32_t number, uint32_t left, uint32_t *words,
                      size_t room);

/* call: 0 bump, 1 end, 2 bump_or_end, 3 token_tree, 4 peek_two_leaves */
typedef uint64_t tt_cursor_call(const uint8_t *b, size_t len, uint32_t trees, const uint32_t *parts, size_t part_words,
                                const uint32_t *symbols, size_t symbol_words, uint32_t call, size_t place, uint32_t number,
                                size_t depth, uint32_t *numbers, uint32_t *counts, size_t *places, size_t *next,
                                size_t next_words, uint32_t *words, size_t room);
tt_cursor_call tt_cursor, tt_cursor_by_value;

uint64_t tt_set_kind(uint8_t *b, size_t len, uint32_t trees, const uint32_t *parts, size_t part_words, const uint32_t *symbols,
                     size_t symbol_words, uint32_t kind);
uint64_t tt_set_spans(uint8_t *b, size_t len, uint32_t trees, uint32_t *parts, size_t part_words, const uint32_t *symbols,
                      size_t symbol_words, const uint32_t *spans);

#endif
