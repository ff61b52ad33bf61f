#include "logs.h"

#include "../p256.h"
#include "check.h"

void next_envelope(struct bytes *envelope, struct warg_log *log, size_t place, const struct signer *alice,
                   const struct signer *bob) {
    struct bytes head = {0};
    CHECK(head_of(log, &head) == WARG_OK);
    publish(envelope, place, &head, alice, bob);
    bytes_free(&head);
}

struct warg_log package_log(size_t records, const struct signer *alice, const struct signer *bob) {
    struct warg_log log = {0};
    struct bytes envelope = {0}, text = {0};
    CHECK(warg_open(&log, WARG_PACKAGE) == WARG_OK);
    for (size_t place = 0; place < records; place++) {
        next_envelope(&envelope, &log, place, alice, bob);
        CHECK(append(&log, &envelope, &text) == WARG_OK);
    }
    bytes_free(&envelope);
    bytes_free(&text);
    return log;
}

void operator_envelope(struct bytes *envelope, const struct signer *alice) {
    struct bytes entries = {0}, contents = {0}, none = {0};
    add_init(&entries, &alice->public_key);
    add_namespace(&entries, "own", "");
    add_namespace(&entries, "other", "registry.example.com");
    add_record(&contents, &none, 1700000000, &entries);
    envelope->len = 0;
    add_operator_envelope(envelope, &contents, alice);
    bytes_free(&entries);
    bytes_free(&contents);
}

struct warg_log operator_log(const struct signer *alice) {
    struct warg_log log = {0};
    struct bytes envelope = {0}, text = {0};
    CHECK(warg_open(&log, WARG_OPERATOR) == WARG_OK);
    operator_envelope(&envelope, alice);
    CHECK(append(&log, &envelope, &text) == WARG_OK);
    bytes_free(&envelope);
    bytes_free(&text);
    return log;
}

static void sign_by_word(struct bytes *signature, void *key, const struct bytes *message) {
    (void)key, (void)message;
    bytes_add_text(signature, "word:AAAA");
}

struct signer word_signer(void) {
    struct signer signer = {.sign = sign_by_word};
    bytes_add_text(&signer.public_key, "word:AAAA");
    add_sha256_text(&signer.key_id, signer.public_key.at, signer.public_key.len);
    return signer;
}

void word_signer_free(struct signer *signer) {
    bytes_free(&signer->public_key);
    bytes_free(&signer->key_id);
}

bool verify_word(const uint8_t *question, const struct warg_asked *asked) {
    const char *signature = (const char *)question + asked->key_len + asked->message_len;
    return asked->signature_len == 9 && !memcmp(signature, "word:AAAA", 9);
}
