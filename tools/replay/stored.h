/* The stored answers, word by word. What is not as it should be ends the program with status 2. */
#ifndef STORED_H
#define STORED_H

#include <stdbool.h>
#include <stddef.h>
#include <stdint.h>

_Noreturn void stored_bad(const char *why);

/* Reads the file and holds its sum, which stands in its last line, to its bytes. */
void stored_open(const char *name);

/* The first word of the next line. */
const char *stored_line(void);
/* The number of the present line. */
size_t stored_line_number(void);
/* Whether the line has another word. */
bool stored_more(void);

const char *stored_word(void);
uint32_t stored_number(void);
/* A number that is at most this. */
uint32_t stored_count(uint32_t most);
/* So many numbers, or so many bytes, for which there must be room; the bytes are counted. */
void stored_numbers(uint32_t *to, size_t n, size_t room);
size_t stored_bytes(uint8_t *to, size_t room);
/* The 13 list words of a tree; a leaf's last five, which are zero, are not stored. False for `-`. */
bool stored_tree(uint32_t *to);
/* The same, and the three words of its report. */
bool stored_reported(uint32_t *to);

#endif
