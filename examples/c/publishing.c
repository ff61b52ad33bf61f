#include "publishing.h"

#include "p256.h"

static void sign(struct bytes *text, void *key, const struct bytes *message) {
    p256_add_signature(text, key, message);
}

struct signer p256_signer(void) {
    struct signer signer = {.sign = sign, .key = p256_new_key()};
    p256_add_public_key(&signer.public_key, signer.key);
    add_sha256_text(&signer.key_id, signer.public_key.at, signer.public_key.len);
    return signer;
}

void p256_signer_free(struct signer *signer) {
    bytes_free(&signer->public_key);
    bytes_free(&signer->key_id);
    EVP_PKEY_free(signer->key);
}

void publish(struct bytes *envelope, size_t place, const struct bytes *prev, const struct signer *alice,
             const struct signer *bob) {
    struct bytes entries = {0}, contents = {0};
    char version[32];
    snprintf(version, sizeof version, "1.%zu.0", place);
    if (place == 0) {
        add_init(&entries, &alice->public_key);
        add_grant(&entries, &bob->public_key, "\1");
    } else {
        add_release(&entries, version, version);
    }
    add_record(&contents, prev, 1700000000 + place, &entries);
    envelope->len = 0;
    add_envelope(envelope, &contents, place ? bob : alice);
    bytes_free(&entries);
    bytes_free(&contents);
}
