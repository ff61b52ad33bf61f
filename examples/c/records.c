#include "records.h"

#include <openssl/evp.h>
#include <string.h>

static void add_varint(struct bytes *to, uint64_t value) {
    uint8_t low[10];
    size_t len = 0;
    for (; value >= 128; value >>= 7)
        low[len++] = (uint8_t)(value | 128);
    low[len++] = (uint8_t)value;
    bytes_add(to, low, len);
}

static void add_number(struct bytes *to, uint32_t field, uint64_t value) {
    if (value) {
        add_varint(to, field * 8);
        add_varint(to, value);
    }
}

static void add_field(struct bytes *to, uint32_t field, const void *at, size_t len) {
    add_varint(to, field * 8 + 2);
    add_varint(to, len);
    bytes_add(to, at, len);
}

/* An entry of two texts, of which the second may be none. */
static void add_entry(struct bytes *entries, uint32_t member, const void *first, size_t first_len, const char *second) {
    struct bytes message = {0}, entry = {0};
    add_field(&message, 1, first, first_len);
    if (*second)
        add_field(&message, 2, second, strlen(second));
    add_field(&entry, member, message.at, message.len);
    add_field(entries, 4, entry.at, entry.len);
    bytes_free(&message);
    bytes_free(&entry);
}

void add_sha256_text(struct bytes *text, const void *at, size_t len) {
    uint8_t digest[32];
    char digits[65];
    if (EVP_Digest(at, len, digest, NULL, EVP_sha256(), NULL) != 1)
        give_up("libcrypto could not hash");
    for (size_t i = 0; i < sizeof digest; i++)
        snprintf(digits + 2 * i, 3, "%02x", digest[i]);
    bytes_add_text(text, "sha256:");
    bytes_add_text(text, digits);
}

void add_init(struct bytes *entries, const struct bytes *public_key) {
    add_entry(entries, 1, public_key->at, public_key->len, "sha256");
}

void add_grant(struct bytes *entries, const struct bytes *public_key, const char *permissions) {
    add_entry(entries, 2, public_key->at, public_key->len, permissions);
}

void add_revoke(struct bytes *entries, const struct bytes *key_id, const char *permissions) {
    add_entry(entries, 3, key_id->at, key_id->len, permissions);
}

void add_release(struct bytes *entries, const char *version, const char *content) {
    struct bytes digest = {0};
    add_sha256_text(&digest, content, strlen(content));
    bytes_add(&digest, "", 1);
    add_entry(entries, 4, version, strlen(version), (const char *)digest.at);
    bytes_free(&digest);
}

void add_yank(struct bytes *entries, const char *version) {
    add_entry(entries, 5, version, strlen(version), "");
}

void add_namespace(struct bytes *entries, const char *name, const char *registry) {
    add_entry(entries, *registry ? 5 : 4, name, strlen(name), registry);
}

void add_record(struct bytes *contents, const struct bytes *prev, uint64_t seconds, const struct bytes *entries) {
    struct bytes time = {0};
    if (prev->len)
        add_field(contents, 1, prev->at, prev->len);
    add_number(contents, 2, 1);
    add_number(&time, 1, seconds);
    add_field(contents, 3, time.at, time.len);
    bytes_add(contents, entries->at, entries->len);
    bytes_free(&time);
}

static void add_signed(struct bytes *envelope, const char *prefix, const struct bytes *contents,
                       const struct signer *signer) {
    struct bytes message = {0}, signature = {0};
    bytes_add_text(&message, prefix);
    bytes_add(&message, contents->at, contents->len);
    signer->sign(&signature, signer->key, &message);
    add_field(envelope, 1, contents->at, contents->len);
    add_field(envelope, 2, signer->key_id.at, signer->key_id.len);
    add_field(envelope, 3, signature.at, signature.len);
    bytes_free(&message);
    bytes_free(&signature);
}

void add_envelope(struct bytes *envelope, const struct bytes *contents, const struct signer *signer) {
    add_signed(envelope, "WARG-PACKAGE-RECORD-SIGNATURE-V0:", contents, signer);
}

void add_operator_envelope(struct bytes *envelope, const struct bytes *contents, const struct signer *signer) {
    add_signed(envelope, "WARG-OPERATOR-RECORD-SIGNATURE-V0:", contents, signer);
}
