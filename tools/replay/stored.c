#include "stored.h"

#include <inttypes.h>
#include <stdio.h>
#include <stdlib.h>
#include <string.h>

#define MOST_BYTES (2u << 20)

static char text[MOST_BYTES + 1];
static char *lines, *words;
static size_t line_number;

_Noreturn void stored_bad(const char *why) {
    if (line_number > 0) {
        fprintf(stderr, "replay: line %zu: %s\n", line_number, why);
    } else {
        fprintf(stderr, "replay: %s\n", why);
    }
    exit(2);
}

/* FNV-1a */
static uint64_t sum_of(const char *from, const char *to) {
    uint64_t sum = UINT64_C(0xCBF29CE484222325);
    for (; from < to; from++) {
        sum = (sum ^ (uint8_t)*from) * UINT64_C(0x100000001B3);
    }
    return sum;
}

void stored_open(const char *name) {
    FILE *file = fopen(name, "rb");
    size_t len = file == NULL ? 0 : fread(text, 1, MOST_BYTES, file);
    if (len == 0 || len == MOST_BYTES || memchr(text, 0, len) != NULL) {
        stored_bad("not the stored answers");
    }
    fclose(file);
    static const char end[] = "\nend ";
    char *last = strstr(text, end);
    if (last == NULL) {
        stored_bad("no last line");
    }
    char due[32];
    const char *behind = last + sizeof end - 2;
    snprintf(due, sizeof due, " %" PRIu64 "\n", sum_of(text, behind));
    if (strcmp(behind, due) != 0) {
        stored_bad("the stored answers have been changed: their sum is another one");
    }
    lines = text;
}

const char *stored_line(void) {
    line_number++;
    words = strsep(&lines, "\n");
    return stored_word();
}

size_t stored_line_number(void) {
    return line_number;
}

bool stored_more(void) {
    return words != NULL;
}

const char *stored_word(void) {
    if (words == NULL) {
        stored_bad("a word is missing");
    }
    return strsep(&words, " ");
}

uint32_t stored_number(void) {
    const char *word = stored_word();
    char *end;
    unsigned long long n = strtoull(word, &end, 10);
    if (*word < '0' || *word > '9' || *end != 0 || n > UINT32_MAX) {
        stored_bad("not a number");
    }
    return (uint32_t)n;
}

uint32_t stored_count(uint32_t most) {
    uint32_t n = stored_number();
    if (n > most) {
        stored_bad("too large a number");
    }
    return n;
}

void stored_numbers(uint32_t *to, size_t n, size_t room) {
    if (n > room) {
        stored_bad("too many numbers");
    }
    for (size_t i = 0; i < n; i++) {
        to[i] = stored_number();
    }
}

size_t stored_bytes(uint8_t *to, size_t room) {
    const char *word = stored_word();
    size_t len = strlen(word) / 2;
    if (word[0] != 'x' || strlen(word) != 2 * len + 1 || len > room) {
        stored_bad("not bytes");
    }
    for (size_t i = 0; i < len; i++) {
        char two[3] = {word[2 * i + 1], word[2 * i + 2], 0}, *end;
        to[i] = (uint8_t)strtoul(two, &end, 16);
        if (*end != 0) {
            stored_bad("not two digits");
        }
    }
    return len;
}

bool stored_tree(uint32_t *to) {
    if (words != NULL && words[0] == '-') {
        stored_word();
        return false;
    }
    memset(to, 0, 13 * sizeof *to);
    to[0] = stored_number();
    stored_numbers(to + 1, to[0] == 3 ? 12 : 7, 12);
    return true;
}

bool stored_reported(uint32_t *to) {
    bool tree = stored_tree(to);
    if (tree) {
        stored_numbers(to + 13, 3, 3);
    }
    return tree;
}
