/* Bytes that grow, and their digits in hex and base64. */
#ifndef BYTES_H
#define BYTES_H

#include <stdbool.h>
#include <stddef.h>
#include <stdint.h>
#include <stdio.h>

/* Bytes on the heap. All 0 is no bytes. `at` is null only then. */
struct bytes {
    uint8_t *at;
    size_t len;
    size_t room;
};

/* Each of these that grows bytes ends the program where there is no memory. */
void bytes_add(struct bytes *bytes, const void *at, size_t len);
void bytes_add_text(struct bytes *bytes, const char *text);
void bytes_add_base64(struct bytes *bytes, const uint8_t *at, size_t len);
/* The bytes of base64, and false where it is none, or not as these bytes are written: with spaces around it, or bits behind the last byte. */
bool bytes_add_from_base64(struct bytes *bytes, const uint8_t *digits, size_t len);
void bytes_free(struct bytes *bytes);

/* Reads the envelope of a log's next line; false at its end. Comments, which begin with #, are passed over, a carriage
 * return before a line feed is dropped, and a blank last line is none. Ends the program where a line is no hex, and
 * where a read fails. */
bool bytes_read_hex(struct bytes *bytes, FILE *from);
void bytes_print_hex(const struct bytes *bytes, FILE *to);

/* Prints a text of UTF-8, with \u{1b} in place of a control character, a separator of lines, a mark of direction or a
 * number that is no character, and two backslashes for one: whatever strangers wrote, it is part of one line, and
 * nothing that a terminal obeys. */
void bytes_print_text(const struct bytes *text, FILE *to);

/* Ends the program where something that was printed could not be written. */
void end_output(void);

/* Ends the program, and says why. */
_Noreturn void give_up(const char *why);

#endif
