#include "p256.h"

#include <openssl/core_names.h>
#include <openssl/ec.h>
#include <openssl/err.h>
#include <openssl/params.h>
#include <string.h>

#define ALGORITHM "ecdsa-p256:"

/* The bytes of a text; false where it is none of this algorithm. */
static bool bytes_of(struct bytes *bytes, const uint8_t *text, size_t len) {
    size_t name = strlen(ALGORITHM);
    return len >= name && !memcmp(text, ALGORITHM, name) && bytes_add_from_base64(bytes, text + name, len - name);
}

/* The key of a SEC1 point, or null. */
static EVP_PKEY *key_of(const struct bytes *point) {
    bool is_compressed = point->len == 33 && (point->at[0] == 2 || point->at[0] == 3);
    if (!is_compressed && !(point->len == 65 && point->at[0] == 4))
        return NULL;
    char curve[] = "prime256v1";
    OSSL_PARAM parameters[] = {
        OSSL_PARAM_construct_utf8_string(OSSL_PKEY_PARAM_GROUP_NAME, curve, 0),
        OSSL_PARAM_construct_octet_string(OSSL_PKEY_PARAM_PUB_KEY, point->at, point->len),
        OSSL_PARAM_construct_end(),
    };
    EVP_PKEY *key = NULL;
    EVP_PKEY_CTX *context = EVP_PKEY_CTX_new_from_name(NULL, "EC", NULL);
    if (context && EVP_PKEY_fromdata_init(context) == 1)
        EVP_PKEY_fromdata(context, &key, EVP_PKEY_PUBLIC_KEY, parameters);
    EVP_PKEY_CTX_free(context);
    return key;
}

/* Whether so many bytes are the contents of an INTEGER of at most 256 bits that is not negative, as few bytes as serve. */
static bool is_integer(const uint8_t *at, size_t len) {
    if (len < 1 || len > 33 || at[0] >= 128 || (len == 33 && at[0]))
        return false;
    return len == 1 || at[0] || at[1] >= 128;
}

/* Whether the bytes are a SEQUENCE of two such INTEGERs, at most 72 bytes, and nothing stands behind them. */
static bool is_der(const struct bytes *signature) {
    const uint8_t *at = signature->at;
    size_t len = signature->len;
    if (len < 8 || len > 72 || at[0] != 0x30 || at[1] != len - 2 || at[2] != 2 || at[3] > len - 6)
        return false;
    size_t first = at[3], second = len - 6 - first;
    return at[4 + first] == 2 && at[5 + first] == second && is_integer(at + 4, first) && is_integer(at + 6 + first, second);
}

static bool verifies(EVP_PKEY *key, const struct bytes *signature, const uint8_t *message, size_t len) {
    EVP_MD_CTX *context = EVP_MD_CTX_new();
    bool belongs = context && EVP_DigestVerifyInit(context, NULL, EVP_sha256(), NULL, key) == 1 &&
                   EVP_DigestVerify(context, signature->at, signature->len, message, len) == 1;
    EVP_MD_CTX_free(context);
    return belongs;
}

bool p256_verify(const uint8_t *question, const struct warg_asked *asked) {
    const uint8_t *message = question + asked->key_len;
    uint32_t status = warg_verify(question, asked->key_len, message, asked->message_len, message + asked->message_len,
                                  asked->signature_len);
    if (status == WARG_OUT_OF_MEMORY)
        give_up("out of memory");
    return status == WARG_OK;
}

bool p256_verify_by_openssl(const uint8_t *question, const struct warg_asked *asked) {
    const uint8_t *message = question + asked->key_len;
    struct bytes point = {0}, signature = {0};
    bool belongs = false;
    /* What libcrypto refuses leaves no error behind. */
    ERR_set_mark();
    if (bytes_of(&point, question, asked->key_len) &&
        bytes_of(&signature, message + asked->message_len, asked->signature_len) && is_der(&signature)) {
        EVP_PKEY *key = key_of(&point);
        belongs = key && verifies(key, &signature, message, asked->message_len);
        EVP_PKEY_free(key);
    }
    ERR_pop_to_mark();
    bytes_free(&point);
    bytes_free(&signature);
    return belongs;
}

EVP_PKEY *p256_new_key(void) {
    EVP_PKEY *key = EVP_EC_gen("P-256");
    if (!key)
        give_up("libcrypto makes no key");
    return key;
}

void p256_add_public_key(struct bytes *text, EVP_PKEY *key) {
    uint8_t point[65];
    size_t len = 0;
    if (EVP_PKEY_get_octet_string_param(key, OSSL_PKEY_PARAM_PUB_KEY, point, sizeof point, &len) != 1)
        give_up("libcrypto gives no public key");
    if (len == 65) {
        /* The first coordinate, behind the parity of the second. */
        point[0] = (uint8_t)(2 + point[64] % 2);
        len = 33;
    }
    bytes_add_text(text, ALGORITHM);
    bytes_add_base64(text, point, len);
}

void p256_add_signature(struct bytes *text, EVP_PKEY *key, const struct bytes *message) {
    /* The DER of a signature takes at most 72 bytes. */
    uint8_t signature[128];
    size_t len = sizeof signature;
    EVP_MD_CTX *context = EVP_MD_CTX_new();
    if (!context || EVP_DigestSignInit(context, NULL, EVP_sha256(), NULL, key) != 1 ||
        EVP_DigestSign(context, signature, &len, message->at, message->len) != 1)
        give_up("libcrypto makes no signature");
    EVP_MD_CTX_free(context);
    bytes_add_text(text, ALGORITHM);
    bytes_add_base64(text, signature, len);
}
