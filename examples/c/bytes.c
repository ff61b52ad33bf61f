#include "bytes.h"

#include <ctype.h>
#include <limits.h>
#include <openssl/evp.h>
#include <stdlib.h>
#include <string.h>

void give_up(const char *why) {
    fprintf(stderr, "%s\n", why);
    exit(2);
}

static uint8_t *room_for(struct bytes *bytes, size_t more) {
    if (bytes->room - bytes->len < more || !bytes->at) {
        size_t room = 2 * bytes->len + more + 64;
        uint8_t *at = realloc(bytes->at, room);
        if (!at)
            give_up("out of memory");
        bytes->at = at;
        bytes->room = room;
    }
    return bytes->at + bytes->len;
}

void bytes_add(struct bytes *bytes, const void *at, size_t len) {
    uint8_t *to = room_for(bytes, len);
    if (len)
        memcpy(to, at, len);
    bytes->len += len;
}

void bytes_add_text(struct bytes *bytes, const char *text) {
    bytes_add(bytes, text, strlen(text));
}

void bytes_add_base64(struct bytes *bytes, const uint8_t *at, size_t len) {
    uint8_t *to = room_for(bytes, len / 3 * 4 + 5);
    bytes->len += (size_t)EVP_EncodeBlock(to, at, (int)len);
}

bool bytes_add_from_base64(struct bytes *bytes, const uint8_t *digits, size_t len) {
    if (len > INT_MAX)
        return false;
    size_t padding = 0;
    while (padding < 2 && padding < len && digits[len - 1 - padding] == '=')
        padding++;
    /* The padding counts as zeros there. */
    uint8_t *at = room_for(bytes, len);
    int got = EVP_DecodeBlock(at, digits, (int)len);
    if (got < (int)padding)
        return false;
    size_t read = (size_t)got - padding;
    struct bytes again = {0};
    bytes_add_base64(&again, at, read);
    bool is_same = again.len == len && !memcmp(again.at, digits, len);
    bytes_free(&again);
    if (is_same)
        bytes->len += read;
    return is_same;
}

void bytes_free(struct bytes *bytes) {
    free(bytes->at);
    *bytes = (struct bytes){0};
}

static int value_of(int digit) {
    if (digit >= '0' && digit <= '9')
        return digit - '0';
    digit = tolower(digit);
    return digit >= 'a' && digit <= 'f' ? digit - 'a' + 10 : -1;
}

/* Reads a line without its end; false where there is none. */
static bool read_line(struct bytes *line, FILE *from) {
    line->len = 0;
    int it = getc(from);
    bool is_there = it != EOF;
    for (; it != '\n' && it != EOF; it = getc(from))
        bytes_add(line, &(uint8_t){(uint8_t)it}, 1);
    if (ferror(from))
        give_up("a read failed");
    if (line->len && line->at[line->len - 1] == '\r')
        line->len--;
    return is_there;
}

/* The same of the next line that is no comment. */
static bool read_digits(struct bytes *line, FILE *from) {
    while (read_line(line, from))
        if (!line->len || line->at[0] != '#')
            return true;
    return false;
}

bool bytes_read_hex(struct bytes *bytes, FILE *from) {
    if (!read_digits(bytes, from))
        return false;
    if (!bytes->len) {
        /* It is none if it is the last. Else it is an empty envelope, and no log goes on behind that. */
        struct bytes next = {0};
        bool is_envelope = read_digits(&next, from);
        bytes_free(&next);
        return is_envelope;
    }
    for (size_t i = 0; i < bytes->len; i += 2) {
        int high = value_of(bytes->at[i]), low = i + 1 < bytes->len ? value_of(bytes->at[i + 1]) : -1;
        if (high < 0 || low < 0)
            give_up("a line is not hex");
        bytes->at[i / 2] = (uint8_t)(high * 16 + low);
    }
    bytes->len /= 2;
    return true;
}

void bytes_print_hex(const struct bytes *bytes, FILE *to) {
    for (size_t i = 0; i < bytes->len; i++)
        fprintf(to, "%02x", bytes->at[i]);
    putc('\n', to);
}

/* Whether a terminal, or a reader of lines, may take the character for more than a sign. */
static bool is_hidden(uint32_t it) {
    bool is_control = it < 0x20 || (it >= 0x7f && it < 0xa0);
    bool is_mark = it == 0x61c || it == 0x200e || it == 0x200f || (it >= 0x2028 && it <= 0x202e) ||
                   (it >= 0x2066 && it <= 0x2069) || it == 0xfeff;
    bool is_none = (it >= 0xfdd0 && it <= 0xfdef) || (it & 0xfffe) == 0xfffe;
    return is_control || is_mark || is_none;
}

void bytes_print_text(const struct bytes *text, FILE *to) {
    for (size_t at = 0, len; at < text->len; at += len) {
        uint32_t it = text->at[at];
        len = it < 0x80 ? 1 : it < 0xe0 ? 2 : it < 0xf0 ? 3 : 4;
        if (len > text->len - at)
            return;
        if (len > 1)
            it &= 0x7fu >> len;
        for (size_t i = 1; i < len; i++)
            it = it << 6 | (text->at[at + i] & 0x3f);
        if (it == '\\')
            fputs("\\\\", to);
        else if (is_hidden(it))
            fprintf(to, "\\u{%x}", (unsigned)it);
        else
            fwrite(text->at + at, 1, len, to);
    }
}

void end_output(void) {
    if (fflush(stdout) || ferror(stdout))
        give_up("standard output could not be written");
}
