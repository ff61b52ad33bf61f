/* What the library verifies itself: each status of warg_verify and of warg_append_signed, on logs that have their records and on resumed ones. What is not
 * appended leaves the log as it was. */
#include "../p256.h"
#include "check.h"
#include "logs.h"

/* The example of RFC 6979, A.2.5, with SHA-256 and the message `sample`. */
#define KEY "ecdsa-p256:A2D+1LolWp0xyWHrdMY1bWjASbiSO2H6bOZpYi5g8p+2"
#define SIGNATURE \
    "ecdsa-p256:MEYCIQDv1IsqrLao/RFA3ZzUXoHWnSyHe1aq+ZHDTQ6oTq83FgIhAPfLHJQtZXxB1DbHobbin2Xz6QDbua/0Bk3Eqy+EOs2o"

static uint8_t text[1 << 14];
static size_t used;

static uint32_t verify(const char *key, const char *message, const char *signature) {
    return warg_verify((const uint8_t *)key, strlen(key), (const uint8_t *)message, strlen(message),
                       (const uint8_t *)signature, strlen(signature));
}

/* Texts that are read in their order: the key's, its algorithm, the signature's. */
static void statuses(void) {
    CHECK(verify(KEY, "sample", SIGNATURE) == WARG_OK);
    CHECK(verify(KEY, "simple", SIGNATURE) == WARG_REFUSED);
    CHECK(verify(KEY, "sampl", SIGNATURE) == WARG_REFUSED);
    CHECK(verify(KEY, "sample", "ecdsa-p384:" "AAAA") == WARG_REFUSED);
    CHECK(verify(KEY, "sample", "ecdsa-p256:") == WARG_REFUSED);
    CHECK(verify("ecdsa-p256:", "sample", SIGNATURE) == WARG_REFUSED);
    CHECK(verify(KEY, "sample", "") == WARG_BAD_ARGUMENT);
    CHECK(verify(KEY, "sample", "ecdsa-p256") == WARG_BAD_ARGUMENT);
    CHECK(verify(KEY, "sample", "ecdsa-p256:!") == WARG_BAD_ARGUMENT);
    CHECK(verify(KEY, "sample", "\xff") == WARG_BAD_ARGUMENT);
    CHECK(verify(KEY, "sample", SIGNATURE "=") == WARG_BAD_ARGUMENT);
    CHECK(verify("", "sample", SIGNATURE) == WARG_BAD_ARGUMENT);
    CHECK(verify("ecdsa-p256", "sample", SIGNATURE) == WARG_BAD_ARGUMENT);
    CHECK(verify(":AAAA", "sample", SIGNATURE) == WARG_BAD_ARGUMENT);
    CHECK(verify("ecdsa-p384:!", "sample", SIGNATURE) == WARG_BAD_ARGUMENT);
    CHECK(verify("\xff:AAAA", "sample", SIGNATURE) == WARG_BAD_ARGUMENT);
    CHECK(verify("ecdsa-p384:AAAA", "sample", SIGNATURE) == WARG_UNKNOWN_ALGORITHM);
    CHECK(verify("ecdsa-p384:AAAA", "sample", "\xff") == WARG_UNKNOWN_ALGORITHM);
    CHECK(verify("ECDSA-P256:AAAA", "sample", SIGNATURE) == WARG_UNKNOWN_ALGORITHM);
    CHECK(verify("ecdsa-p256 :AAAA", "sample", SIGNATURE) == WARG_UNKNOWN_ALGORITHM);
    CHECK(verify(" ecdsa-p256:AAAA", "sample", SIGNATURE) == WARG_UNKNOWN_ALGORITHM);
}

/* Texts of a mebibyte, and a zero byte in one. */
static void odd_texts(void) {
    static uint8_t much[11 + (1 << 20)];
    const uint8_t *key = (const uint8_t *)KEY, *signature = (const uint8_t *)SIGNATURE;
    memset(much, 'A', sizeof much);
    memcpy(much, "ecdsa-p256:", 11);
    CHECK(warg_verify(much, sizeof much, signature, 0, signature, strlen(SIGNATURE)) == WARG_REFUSED);
    CHECK(warg_verify(key, strlen(KEY), signature, 0, much, sizeof much) == WARG_REFUSED);
    CHECK(warg_verify(key, strlen(KEY), much, sizeof much, signature, strlen(SIGNATURE)) == WARG_REFUSED);
    memset(much, 'A', 11);
    CHECK(warg_verify(much, sizeof much, signature, 0, signature, strlen(SIGNATURE)) == WARG_BAD_ARGUMENT);
    memcpy(much, "ecdsa-p256\0:", 12);
    CHECK(warg_verify(much, 12, signature, 0, signature, strlen(SIGNATURE)) == WARG_UNKNOWN_ALGORITHM);
}

/* What a log says of itself: its state and the id of its last record. */
static void add_said(struct bytes *said, struct warg_log *log) {
    said->len = 0;
    CHECK(warg_save(log, text, sizeof text, &used) == WARG_OK);
    bytes_add(said, text, used);
    uint32_t status = warg_head(log, text, sizeof text, &used);
    CHECK(status == WARG_OK || status == WARG_NONE);
    bytes_add(said, text, used);
}

/* Appends, which has a status other than 0, an error's text that begins so, or none, and leaves the log as it was, with room for a text and with none. */
static void expect(struct warg_log *log, const struct bytes *envelope, uint32_t wanted, const char *words) {
    struct bytes before = {0}, after = {0};
    add_said(&before, log);
    CHECK(warg_append_signed(log, envelope->at, envelope->len, text, sizeof text, &used) == wanted);
    CHECK(*words ? BEGINS(text, used, words) : !used);
    used = 9;
    CHECK(warg_append_signed(log, envelope->at, envelope->len, text, *words ? strlen(words) : 0, &used) == wanted);
    CHECK(!used);
    add_said(&after, log);
    CHECK(before.len == after.len && !memcmp(before.at, after.at, after.len));
    bytes_free(&before);
    bytes_free(&after);
}

/* The same with another digit near the end of the signature, which is the envelope's last field. */
static void expect_forged(struct warg_log *log, struct bytes *envelope) {
    uint8_t *digit = envelope->at + envelope->len - 8, was = *digit;
    *digit = was == 'A' ? 'B' : 'A';
    expect(log, envelope, WARG_REFUSED, "SignatureError: ");
    *digit = was;
}

static void take(struct warg_log *log, const struct bytes *envelope) {
    used = 9;
    CHECK(warg_append_signed(log, envelope->at, envelope->len, text, 0, &used) == WARG_OK && !used);
}

/* Puts the log that goes on from its saved state in its place. */
static void resume(struct warg_log *log, uint32_t kind) {
    size_t len = 0;
    static uint8_t saved[1 << 14];
    CHECK(warg_save(log, saved, sizeof saved, &len) == WARG_OK);
    CHECK(warg_resume(log, kind, saved, len, text, sizeof text, &used) == WARG_OK);
}

/* A log of the scheme `ecdsa-p256`: each status but that of another algorithm. */
static void own_scheme(bool is_resumed, const struct signer *alice, const struct signer *bob) {
    struct warg_log log = {0};
    struct bytes nonsense = {0}, first = {0}, none = {0}, next = {0};
    bytes_add_text(&nonsense, "\x0b");
    publish(&first, 0, &none, alice, bob);
    used = 9;
    CHECK(warg_append_signed(&log, first.at, first.len, text, sizeof text, &used) == WARG_NOT_OPEN && !used);
    CHECK(warg_open(&log, WARG_PACKAGE) == WARG_OK);
    if (is_resumed)
        resume(&log, WARG_PACKAGE);
    expect(&log, &nonsense, WARG_NO_ENVELOPE, "Proto");
    take(&log, &first);
    expect(&log, &first, WARG_REFUSED, "NoPreviousHashAfterInit: ");
    next_envelope(&next, &log, 1, alice, bob);
    expect_forged(&log, &next);
    /* A question that was asked before is of no matter, nor is the one of another envelope. */
    struct warg_asked asked;
    CHECK(warg_ask(&log, next.at, next.len, text, sizeof text, &used, &asked) == WARG_OK);
    take(&log, &next);
    next_envelope(&next, &log, 2, alice, bob);
    CHECK(warg_ask(&log, first.at, first.len, text, sizeof text, &used, &asked) == WARG_REFUSED);
    take(&log, &next);
    size_t length = 0;
    CHECK(warg_length(&log, &length) == (is_resumed ? WARG_BAD_ARGUMENT : WARG_OK));
    CHECK(is_resumed || length == 3);
    warg_close(&log);
    bytes_free(&nonsense);
    bytes_free(&first);
    bytes_free(&next);
}

/* A log of another scheme, which goes on by the caller's word: what is unlawful is refused whatever the scheme, and what bob signs, whose key is of
 * `ecdsa-p256`, is verified. */
static void other_scheme(bool is_resumed, const struct signer *bob) {
    struct warg_log log = {0};
    struct signer word = word_signer();
    struct bytes first = {0}, none = {0}, next = {0}, said = {0};
    CHECK(warg_open(&log, WARG_PACKAGE) == WARG_OK);
    if (is_resumed)
        resume(&log, WARG_PACKAGE);
    publish(&first, 0, &none, &word, bob);
    expect(&log, &first, WARG_UNKNOWN_ALGORITHM, "");
    CHECK(append_by(&log, &first, verify_word, &said) == WARG_OK);
    expect(&log, &first, WARG_REFUSED, "NoPreviousHashAfterInit: ");
    next_envelope(&next, &log, 1, &word, bob);
    take(&log, &next);
    next_envelope(&next, &log, 1, &word, &word);
    expect(&log, &next, WARG_REFUSED, "ReleaseOfReleased: ");
    next_envelope(&next, &log, 2, &word, &word);
    expect(&log, &next, WARG_UNKNOWN_ALGORITHM, "");
    warg_close(&log);
    word_signer_free(&word);
    bytes_free(&first);
    bytes_free(&next);
    bytes_free(&said);
}

/* The same of a log of operators. */
static void operators(bool is_resumed, const struct signer *alice) {
    struct warg_log log = {0};
    struct signer word = word_signer();
    struct bytes envelope = {0};
    CHECK(warg_open(&log, WARG_OPERATOR) == WARG_OK);
    if (is_resumed)
        resume(&log, WARG_OPERATOR);
    operator_envelope(&envelope, &word);
    expect(&log, &envelope, WARG_UNKNOWN_ALGORITHM, "");
    operator_envelope(&envelope, alice);
    expect_forged(&log, &envelope);
    take(&log, &envelope);
    warg_close(&log);
    word_signer_free(&word);
    bytes_free(&envelope);
}

int main(void) {
    struct signer alice = p256_signer(), bob = p256_signer();
    statuses();
    odd_texts();
    for (int is_resumed = 0; is_resumed < 2; is_resumed++) {
        own_scheme(is_resumed, &alice, &bob);
        other_scheme(is_resumed, &bob);
        operators(is_resumed, &alice);
    }
    p256_signer_free(&alice);
    p256_signer_free(&bob);
    puts("each status of what the library verifies itself");
    return 0;
}
