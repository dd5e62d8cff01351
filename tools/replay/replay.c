/* Replays the stored answers of the unmodified source on the proved functions. Status 0: no difference; 1: one; 2: the
 * stored answers cannot be read to the end, as after a difference in the number of words that an answer has. */
#include <stdio.h>
#include <string.h>

#include "stored.h"
#include "tt_export.h"
#include "tt_store.h"

enum { TREES = 300, PARTS = 2 * TREES, BYTES = 33 * TREES, NOISE = 0xAA };

/* A tree's 13 list words and the three of its report. */
enum { SEEN = 13 + 3 };

/* The list of the last line `list`, with its tables, its bytes, or those of the last line `loose`; or the buffer of the last line
 * `buffer` or `damaged`. */
static uint32_t list[13 * TREES], parts[3 * PARTS], symbols[TREES];
static size_t trees, part_count, symbol_count;
static uint8_t bytes[BYTES];
static size_t byte_count;

static size_t cases, calls, differences;

/* A case; only the first differences are told. */
static void held(bool same, const char *what) {
    cases++;
    if (!same && ++differences <= 20) {
        printf("replay: line %zu differs: %s\n", stored_line_number(), what);
    }
}

static bool refused(uint64_t reply, uint64_t number) {
    return reply == TT_REFUSED + (number << 32);
}

/* ---- spans and symbols */

/* What was packed is what is stored, and nothing behind it has changed. */
static bool packed(const uint8_t *out, size_t room, uint64_t reply) {
    uint8_t want[32];
    memset(want, NOISE, sizeof want);
    size_t len = stored_bytes(want, room);
    return reply == len && memcmp(out, want, room) == 0;
}

static void span(void) {
    uint32_t w[5];
    uint8_t out[16];
    memset(out, NOISE, sizeof out);
    stored_numbers(w, 5, 5);
    uint64_t reply = tt_encode_span(out, sizeof out, 0, w[0], w[1], w[2], w[3], w[4] != 0);
    held(packed(out, sizeof out, reply), "span");
}

static void unspan(void) {
    uint8_t from[12];
    uint32_t w[5], want[5];
    size_t len = stored_bytes(from, sizeof from);
    uint64_t reply = tt_decode_span(from, len, 0, w, 5);
    stored_numbers(want, 5, 5);
    bool same = reply == want[3] && memcmp(w, want, 3 * sizeof *w) == 0;
    held(same && w[3] == from[0] % 4 && w[4] == want[4], "span read");
}

static void symbol(void) {
    uint8_t out[16];
    memset(out, NOISE, sizeof out);
    uint32_t index = stored_number(), tag = stored_number();
    uint64_t reply = tt_encode_symbol(out, sizeof out, 0, tag, index);
    held(packed(out, sizeof out, reply), "symbol");
}

static void unsymbol(void) {
    uint8_t from[4];
    uint32_t w[2];
    size_t len = stored_bytes(from, sizeof from);
    uint64_t reply = tt_decode_symbol(from, len, 0, w, 2);
    uint32_t index = stored_number(), used = stored_number();
    held(reply == used && w[0] == index && w[1] == from[0] % 2, "symbol read");
}

/* ---- lists */

static void read_list(void) {
    trees = stored_count(TREES);
    for (size_t i = 0; i < trees; i++) {
        stored_tree(list + 13 * i);
    }
}

static void read_tables(void) {
    part_count = stored_count(PARTS);
    stored_numbers(parts, 3 * part_count, 3 * PARTS);
    symbol_count = stored_count(TREES);
    stored_numbers(symbols, symbol_count, TREES);
}

static bool passes(void) {
    return tt_check_buffer(bytes, byte_count, (uint32_t)trees, parts, 3 * part_count, symbols, symbol_count) == 0;
}

static uint32_t work[TREES + 1];

/* The list's bytes over the source's tables are the source's. */
static void written(void) {
    static uint8_t out[BYTES + 8], want[BYTES + 8];
    memset(out, NOISE, sizeof out);
    memset(want, NOISE, sizeof want);
    byte_count = stored_bytes(bytes, BYTES);
    memcpy(want, bytes, byte_count);
    uint64_t reply =
        tt_encode_list(list, 13 * trees, parts, 3 * part_count, symbols, symbol_count, work, TREES + 1, out, sizeof out);
    held(reply == byte_count && memcmp(out, want, sizeof out) == 0 && passes(), "list written");
}

/* The source leaves the first of its sizes at 0; here it is the total. */
static void sizes(void) {
    uint32_t want[TREES];
    stored_numbers(want, trees, TREES);
    held(work[0] == byte_count && memcmp(work + 1, want, trees * sizeof *want) == 0, "sizes");
}

/* The place of an entry of so many words, n if it is not there. */
static size_t place_of(const uint32_t *entries, size_t n, size_t words, const uint32_t *entry) {
    size_t i = 0;
    while (i < n && memcmp(entries + words * i, entry, words * sizeof *entry) != 0) {
        i++;
    }
    return i;
}

/* Whether an entry of so many words has this count. */
static bool counted(const uint32_t *entries, const uint32_t *counts, size_t n, size_t words, const uint32_t *entry) {
    size_t i = place_of(entries, n, words, entry);
    return i < n && counts[i] == entry[words];
}

/* As many entries as the source has, and each of the source's with its count. */
static bool all_counted(const uint32_t *entries, const uint32_t *counts, size_t n, size_t words) {
    size_t due = stored_number();
    bool same = n == due;
    for (size_t i = 0; i < due; i++) {
        uint32_t entry[4];
        stored_numbers(entry, words + 1, 4);
        same &= counted(entries, counts, n, words, entry);
    }
    return same;
}

static void counts(void) {
    static uint32_t own_parts[3 * PARTS], part_counts[PARTS], own_symbols[TREES], symbol_counts[TREES];
    uint64_t reply =
        tt_tables(list, 13 * trees, own_parts, 3 * PARTS, part_counts, PARTS, own_symbols, TREES, symbol_counts, TREES);
    size_t below = (reply >> 32) - 2;
    bool same = reply < TT_REFUSED && all_counted(own_parts, part_counts, below, 3);
    same = same && all_counted(own_symbols, symbol_counts, reply & UINT32_MAX, 1);
    /* the root's two parts stand last, as in the source's table */
    same = same && memcmp(own_parts + 3 * below, parts + 3 * (part_count - 2), 6 * sizeof *parts) == 0;
    held(same, "tables");
}

/* ---- buffers */

static void read_loose(void) {
    byte_count = stored_bytes(bytes, BYTES);
    held(passes(), "loose buffer checked");
}

/* A tree with its report or none, as stored. */
static bool tree_alike(uint64_t reply, const uint32_t *words) {
    uint32_t want[SEEN];
    if (!stored_reported(want)) {
        return reply == 0;
    }
    return reply == 1 && memcmp(words, want, sizeof want) == 0;
}

static void walk(void) {
    size_t at[3] = {0, 0, trees};
    bool same = true;
    for (; stored_more(); calls++) {
        uint32_t words[SEEN];
        bool skip = stored_word()[0] == 's';
        uint64_t reply = tt_walk(bytes, byte_count, (uint32_t)trees, parts, 3 * part_count, symbols, symbol_count, at[0],
                                 (uint32_t)at[1], (uint32_t)at[2], skip, at, 3, words, SEEN);
        same &= tree_alike(reply, words);
        same &= at[0] == stored_number() && at[1] + at[2] == trees;
    }
    held(same && at[1] > 0, "walk");
}

static void last(void) {
    uint32_t from[3], words[6], want[6];
    stored_numbers(from, 3, 3);
    uint64_t reply = tt_last_span(bytes, byte_count, (uint32_t)trees, parts, 3 * part_count, symbols, symbol_count, from[0],
                                  from[1], from[2], words, 6);
    if (from[2] == 0) {
        held(stored_word()[0] == '-' && reply == 0, "no last span");
        return;
    }
    stored_numbers(want, 6, 6);
    held(reply == 1 && memcmp(words, want, sizeof want) == 0, "last span");
}

/* ---- cursors */

struct cursor {
    size_t at[3];
    uint32_t numbers[256], counts[256];
    size_t places[256];
};

/* The answer and the state behind it, of a cursor in one of its forms. */
static uint64_t cursor_call(tt_cursor_call *form, struct cursor *c, uint32_t call, uint32_t *words) {
    return form(bytes, byte_count, (uint32_t)trees, parts, 3 * part_count, symbols, symbol_count, call, c->at[0],
                (uint32_t)c->at[1], c->at[2], c->numbers, c->counts, c->places, c->at, 3, words, 2 * SEEN);
}

/* The source gives up where ours is 10. */
static bool cursor_alike(uint64_t reply, const uint32_t *words) {
    uint32_t want[2 * SEEN];
    switch (stored_word()[0]) {
    case '!':
        return refused(reply, 10);
    case '.':
        return reply == 3;
    case '-':
        return reply == 0;
    case 't':
        stored_reported(want);
        return reply == 1 && memcmp(words, want, SEEN * sizeof *want) == 0;
    default:
        stored_reported(want);
        stored_reported(want + SEEN);
        return reply == 2 && memcmp(words, want, sizeof want) == 0;
    }
}

static void cursor(void) {
    static struct cursor lent, by_value;
    memset(&lent, 0, sizeof lent);
    memset(&by_value, 0, sizeof by_value);
    bool same = true;
    for (; stored_more(); calls++) {
        static const char letters[] = "beotp";
        const char *letter = strchr(letters, stored_word()[0]);
        if (letter == NULL) {
            stored_bad("no such call");
        }
        uint32_t words[2 * SEEN] = {0}, others[2 * SEEN] = {0};
        uint32_t call = (uint32_t)(letter - letters);
        uint64_t reply = cursor_call(tt_cursor, &lent, call, words);
        same &= cursor_call(tt_cursor_by_value, &by_value, call, others) == reply;
        same &= memcmp(words, others, sizeof words) == 0 && memcmp(&lent, &by_value, sizeof lent) == 0;
        same &= cursor_alike(reply, words);
        uint32_t state[3];
        stored_numbers(state, 3, 3);
        same &= lent.at[1] == state[0] && lent.at[0] == state[1] && lent.at[2] == state[2];
    }
    held(same, "cursor");
}

/* ---- roots */

/* The root's bytes are the stored ones, and behind them nothing has changed. */
static bool root_alike(const uint8_t *changed) {
    uint8_t want[33];
    bool same = stored_bytes(want, sizeof want) == sizeof want && memcmp(changed, want, sizeof want) == 0;
    return same && memcmp(changed + 33, bytes + 33, byte_count - 33) == 0;
}

static void kind(void) {
    static uint8_t changed[BYTES];
    memcpy(changed, bytes, byte_count);
    uint64_t reply =
        tt_set_kind(changed, byte_count, (uint32_t)trees, parts, 3 * part_count, symbols, symbol_count, stored_number());
    held(root_alike(changed) && reply == 0, "root's kind");
}

static void spans(void) {
    static uint8_t changed[BYTES];
    static uint32_t changed_parts[3 * PARTS];
    uint32_t words[10], want[6];
    stored_numbers(words, 10, 10);
    memcpy(changed, bytes, byte_count);
    memcpy(changed_parts, parts, sizeof parts);
    uint64_t reply = tt_set_spans(changed, byte_count, (uint32_t)trees, changed_parts, 3 * part_count, symbols, symbol_count, words);
    bool same = root_alike(changed) && reply == 0;
    stored_numbers(want, 6, 6);
    size_t below = 3 * (part_count - 2);
    same = same && memcmp(changed_parts + below, want, sizeof want) == 0;
    held(same && memcmp(changed_parts, parts, below * sizeof *parts) == 0, "root's spans");
}

/* ---- stored buffers */

static void read_stored(void) {
    trees = stored_count(TREES);
    read_tables();
    byte_count = stored_bytes(bytes, BYTES);
}

static void read_buffer(void) {
    read_stored();
    held(passes(), "buffer checked");
}

/* ---- one leaf exchanged */

/* What is written: longer than needed, with noise in it. */
static struct {
    uint8_t bytes[BYTES + 8];
    uint32_t parts[3 * PARTS + 8], symbols[TREES + 8];
} fresh, noise;

/* Whether the first words that differ rise. */
static bool rises(const uint32_t *before, const uint32_t *entry, size_t words) {
    size_t i = 0;
    while (i + 1 < words && before[i] == entry[i]) {
        i++;
    }
    return before[i] < entry[i];
}

/* As many entries as are stored, and each of them, which are sorted; the last ones, so many, in their places. */
static bool same_set(const uint32_t *entries, size_t n, size_t words, size_t last) {
    static uint32_t due[3 * PARTS];
    size_t count = stored_count(PARTS);
    stored_numbers(due, words * count, 3 * PARTS);
    bool same = n == count;
    for (size_t i = 0; same && i < n - last; i++) {
        const uint32_t *entry = due + words * i;
        same = place_of(entries, n - last, words, entry) < n - last && (i == 0 || rises(entry - words, entry, words));
    }
    return same && memcmp(entries + words * (n - last), due + words * (n - last), words * last * sizeof *due) == 0;
}

/* The new buffer over the new tables passes the check and reads as the stored list, and no span below the root is loose; the
 * tables are the source's as sets. */
static bool fresh_alike(const size_t *told) {
    bool same = tt_check_buffer(fresh.bytes, told[0], (uint32_t)trees, fresh.parts, 3 * told[1], fresh.symbols, told[2]) == 0;
    size_t at[3] = {0, 0, trees};
    for (size_t i = 0; i < trees; i++) {
        uint32_t words[SEEN], want[13];
        uint64_t reply = tt_walk(fresh.bytes, told[0], (uint32_t)trees, fresh.parts, 3 * told[1], fresh.symbols, told[2], at[0],
                                 (uint32_t)at[1], (uint32_t)at[2], false, at, 3, words, SEEN);
        same &= stored_tree(want) && reply == 1 && memcmp(words, want, sizeof want) == 0;
        same &= i == 0 || (words[13] | words[14] | words[15]) == 0;
    }
    same = same_set(fresh.parts, told[1], 3, 2) && same;
    return same_set(fresh.symbols, told[2], 1, 0) && same;
}

static bool unchanged_behind(const size_t *told) {
    memcpy(fresh.bytes, noise.bytes, told[0]);
    memcpy(fresh.parts, noise.parts, 3 * told[1] * sizeof *fresh.parts);
    memcpy(fresh.symbols, noise.symbols, told[2] * sizeof *fresh.symbols);
    return memcmp(&fresh, &noise, sizeof fresh) == 0;
}

/* What is told before, with work words for the list as long as asked or shorter by some. What lies behind them stays, after a refusal
 * all of them. */
static uint32_t preview(uint32_t number, const uint32_t *leaf, size_t less, size_t *told) {
    static uint32_t work[TT_LIST_WORK(TREES) + TT_TABLE_WORK(TREES) + TT_COUNT_WORK(TREES)];
    uint32_t *tables = work + TT_LIST_WORK(trees), *counts = tables + TT_TABLE_WORK(trees);
    memset(work, NOISE, sizeof work);
    uint32_t reply = tt_preview(bytes, byte_count, (uint32_t)trees, parts, 3 * part_count, symbols, symbol_count, number, leaf, work,
                                TT_LIST_WORK(trees) - less, tables, TT_TABLE_WORK(trees), counts, TT_COUNT_WORK(trees), told);
    const uint8_t *byte = (const uint8_t *)(reply == 0 ? counts + TT_COUNT_WORK(trees) : work);
    while (byte < (const uint8_t *)(work + sizeof work / sizeof *work)) {
        if (*byte++ != NOISE) {
            return UINT32_MAX;
        }
    }
    return reply;
}

/* As replacing answers, and with a word too few 6 in the place of 0. */
static bool previewed(uint32_t number, const uint32_t *leaf, uint32_t reply, const size_t *told) {
    size_t before[3], none[3] = {0, 0, 0};
    bool same = preview(number, leaf, 0, before) == reply && memcmp(before, told, sizeof before) == 0;
    return same && preview(number, leaf, 1, before) == (reply == 0 ? 6 : reply) && memcmp(before, reply == 0 ? none : told, sizeof before) == 0;
}

static void token(void) {
    static uint32_t work[TT_LIST_WORK(TREES) + TT_TABLE_WORK(TREES) + TT_COUNT_WORK(TREES)];
    uint32_t number = stored_number(), leaf[13], *tables = work + TT_LIST_WORK(trees), *counts = tables + TT_TABLE_WORK(trees);
    size_t told[3];
    stored_tree(leaf);
    memset(&noise, NOISE, sizeof noise);
    fresh = noise;
    uint32_t reply = tt_set_token(bytes, byte_count, (uint32_t)trees, parts, 3 * part_count, symbols, symbol_count, number, leaf,
                                  work, TT_LIST_WORK(trees), tables, TT_TABLE_WORK(trees), counts, TT_COUNT_WORK(trees),
                                  fresh.bytes, sizeof fresh.bytes, fresh.parts, 3 * PARTS + 8, fresh.symbols, TREES + 8, told);
    /* the source gives up where ours is 10 */
    if (stored_word()[0] == '!') {
        bool same = reply == 10 && told[0] == number && told[1] == 0 && told[2] == 0;
        held(same && memcmp(&fresh, &noise, sizeof fresh) == 0, "no leaf to exchange");
        held(previewed(number, leaf, reply, told), "no size before exchanging");
        return;
    }
    bool done = reply == 0 && told[0] <= BYTES && told[1] <= PARTS && told[2] <= TREES;
    bool same = done && fresh_alike(told) && unchanged_behind(told);
    while (!done && stored_more()) {
        stored_word();
    }
    held(same, "leaf exchanged");
    held(previewed(number, leaf, reply, told), "size before exchanging");
}

/* ---- buffers put in order */

/* What is lent, with noise in it; some bytes more than are needed. */
static struct tidy {
    uint32_t list[TT_LIST_WORK(TREES)], tables[TT_TABLE_WORK(TREES)], counts[TT_COUNT_WORK(TREES)];
    uint8_t bytes[BYTES + 8];
} tidied, untouched;

/* Exactly the work words that are due, and so much room. */
static uint32_t put_in_order(const uint8_t *b, size_t len, size_t room, size_t *told) {
    memset(&untouched, NOISE, sizeof untouched);
    tidied = untouched;
    return tt_tidy(b, len, (uint32_t)trees, parts, 3 * part_count, symbols, symbol_count, tidied.list, TT_LIST_WORK(trees),
                   tidied.tables, TT_TABLE_WORK(trees), tidied.counts, TT_COUNT_WORK(trees), tidied.bytes, room, told);
}

/* Whether these bytes were written, and nothing behind them or behind the work words. */
static bool written_alone(const uint8_t *b, size_t len) {
    memcpy(untouched.bytes, b, len);
    memcpy(untouched.list, tidied.list, TT_LIST_WORK(trees) * sizeof *tidied.list);
    memcpy(untouched.counts, tidied.counts, TT_COUNT_WORK(trees) * sizeof *tidied.counts);
    return memcmp(&tidied, &untouched, sizeof tidied) == 0;
}

/* These bytes read as the buffer does, and no span below the root is loose. */
static bool reads_alike(const uint8_t *b, size_t len) {
    size_t at[3] = {0, 0, trees}, at_other[3] = {0, 0, trees};
    bool same = true;
    for (size_t i = 0; i < trees; i++) {
        uint32_t words[SEEN], others[SEEN];
        same &= tt_walk(bytes, byte_count, (uint32_t)trees, parts, 3 * part_count, symbols, symbol_count, at[0], (uint32_t)at[1],
                        (uint32_t)at[2], false, at, 3, words, SEEN) == 1;
        same &= tt_walk(b, len, (uint32_t)trees, parts, 3 * part_count, symbols, symbol_count, at_other[0], (uint32_t)at_other[1],
                        (uint32_t)at_other[2], false, at_other, 3, others, SEEN) == 1;
        same &= memcmp(words, others, 13 * sizeof *words) == 0 && (i == 0 || (others[13] | others[14] | others[15]) == 0);
    }
    return same;
}

/* With room for no byte more; again, with room to spare; with room for one less. */
static void tidy(void) {
    static uint8_t want[BYTES];
    size_t due = stored_bytes(want, BYTES), told[1];
    bool same = put_in_order(bytes, byte_count, due, told) == 0 && told[0] == due && written_alone(want, due);
    same = same && reads_alike(want, due);
    same = same && put_in_order(want, due, sizeof tidied.bytes, told) == 0 && told[0] == due && written_alone(want, due);
    same = same && put_in_order(bytes, byte_count, due - 1, told) == 6 && told[0] == 0 && written_alone(want, 0);
    held(same, "buffer put in order");
}

static void damaged(void) {
    read_stored();
    uint32_t number = stored_number(), tree = stored_number();
    size_t told[1];
    bool same = put_in_order(bytes, byte_count, sizeof tidied.bytes, told) == number && told[0] == tree;
    held(same && memcmp(&tidied, &untouched, sizeof tidied) == 0, "damaged buffer refused");
}

static const struct {
    const char *word;
    void (*run)(void);
} sorts[] = {
    {"span", span},          {"unspan", unspan}, {"symbol", symbol}, {"unsymbol", unsymbol}, {"list", read_list},
    {"tables", read_tables}, {"bytes", written}, {"sizes", sizes},   {"counts", counts},     {"loose", read_loose},
    {"walk", walk},          {"last", last},     {"cursor", cursor}, {"kind", kind},         {"spans", spans},
    {"buffer", read_buffer}, {"token", token},   {"tidy", tidy},     {"damaged", damaged},
};

int main(int argc, char **argv) {
    stored_open(argc > 1 ? argv[1] : "");
    const char *word;
    while (strcmp(word = stored_line(), "end") != 0) {
        size_t i = 0;
        while (i < sizeof sorts / sizeof *sorts && strcmp(sorts[i].word, word) != 0) {
            i++;
        }
        if (i == sizeof sorts / sizeof *sorts) {
            stored_bad("no such line");
        }
        sorts[i].run();
        if (stored_more()) {
            stored_bad("more words than are due");
        }
    }
    if (cases == 0) {
        stored_bad("no case");
    }
    printf("replay: %zu cases, %zu calls of walks and cursors in them, %zu differences\n", cases, calls, differences);
    return differences != 0;
}
