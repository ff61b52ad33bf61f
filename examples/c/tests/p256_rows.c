/* Each row of conformance/values/p256.rows, or each Nth: `p256_rows N`, by the library and by libcrypto behind the same reader. An error of
 * libcrypto that another part of the program has yet to read, as one of a TLS connection, is the only one that stands there afterwards. */
#include "../p256.h"
#include "check.h"

#include <openssl/err.h>

#ifndef ROWS
#define ROWS "conformance/values/p256.rows"
#endif

/* The bytes of a word of hex digits; `-` is no bytes. */
static void add_word(struct bytes *bytes, const char *word) {
    for (; word[0] && word[1]; word += 2) {
        char digits[] = {word[0], word[1], 0}, *end;
        uint8_t byte = (uint8_t)strtoul(digits, &end, 16);
        CHECK(end == digits + 2);
        bytes_add(bytes, &byte, 1);
    }
    CHECK(!word[0] || !strcmp(word, "-"));
}

/* Adds the text of the key or of the signature of these hex digits, and gives its length. */
static size_t add_text_of(struct bytes *question, const char *word) {
    struct bytes bytes = {0};
    size_t before = question->len;
    add_word(&bytes, word);
    bytes_add_text(question, "ecdsa-p256:");
    bytes_add_base64(question, bytes.at, bytes.len);
    bytes_free(&bytes);
    return question->len - before;
}

/* Whether the signature of a row belongs to its message under its key. */
static bool belongs(const char *key, const char *message, const char *signature) {
    struct bytes question = {0};
    struct warg_asked asked = {0};
    asked.key_len = add_text_of(&question, key);
    add_word(&question, message);
    asked.message_len = question.len - asked.key_len;
    asked.signature_len = add_text_of(&question, signature);
    bool is_so = p256_verify(question.at, &asked);
    CHECK(p256_verify_by_openssl(question.at, &asked) == is_so);
    bytes_free(&question);
    return is_so;
}

int main(int count, char **words) {
    static char line[1 << 14];
    long step = count > 1 ? strtol(words[1], NULL, 10) : 1;
    size_t number = 0, rows = 0, right = 0, wrong = 0;
    FILE *file = fopen(ROWS, "r");
    CHECK(file && step > 0);
    ERR_raise(ERR_LIB_SSL, 1);
    unsigned long another = ERR_peek_error();
    while (fgets(line, sizeof line, file)) {
        number++;
        CHECK(strchr(line, '\n'));
        if (*line == '#' || *line == '\n' || rows++ % (size_t)step)
            continue;
        CHECK(!strcmp(strtok(line, " "), "p256-verify"));
        const char *key = strtok(NULL, " "), *message = strtok(NULL, " "), *signature = strtok(NULL, " ");
        const char *sign = strtok(NULL, " "), *answer = strtok(NULL, "\n");
        CHECK(answer && !strcmp(sign, "=") && (!strcmp(answer, "yes") || !strcmp(answer, "no")));
        bool is_right = !strcmp(answer, "yes");
        right += is_right;
        if (belongs(key, message, signature) != is_right) {
            wrong++;
            fprintf(stderr, "%s:%zu: not %s\n", ROWS, number, answer);
        }
    }
    fclose(file);
    CHECK(another && ERR_get_error() == another && !ERR_get_error());
    CHECK(!wrong && rows > 2300 && right * (size_t)step > 500);
    printf("%zu rows, %zu of those that were played are right\n", rows, right);
    return 0;
}
