/* Times the verification of a signature of ECDSA P-256: `p256 RUNS`. Prints the least time of the runs in microseconds, of processor time: by the library,
 * from the texts of the key and of the signature; and by libcrypto, from a key that was read and a digest that was made, as `openssl speed ecdsap256`. */
#include "../p256.h"

#include <openssl/sha.h>
#include <stdio.h>
#include <stdlib.h>
#include <string.h>
#include <time.h>

enum { TIMES = 20, MESSAGE = 200 };

static double now(void) {
    struct timespec time;
    clock_gettime(CLOCK_THREAD_CPUTIME_ID, &time);
    return (double)time.tv_sec * 1e6 + (double)time.tv_nsec / 1e3;
}

/* What libcrypto verifies with, for the key: its digest is made beforehand. */
static EVP_PKEY_CTX *context_of(EVP_PKEY *key) {
    EVP_PKEY_CTX *context = EVP_PKEY_CTX_new(key, NULL);
    if (!context || EVP_PKEY_verify_init(context) != 1)
        give_up("libcrypto makes no context");
    return context;
}

static double by_library(const struct bytes *key, const struct bytes *message, const struct bytes *signature) {
    double start = now();
    for (int i = 0; i < TIMES; i++)
        if (warg_verify(key->at, key->len, message->at, message->len, signature->at, signature->len) != WARG_OK)
            give_up("the library refuses the signature");
    return (now() - start) / TIMES;
}

static double by_libcrypto(EVP_PKEY_CTX *context, const struct bytes *der, const uint8_t *digest) {
    double start = now();
    for (int i = 0; i < TIMES; i++)
        if (EVP_PKEY_verify(context, der->at, der->len, digest, SHA256_DIGEST_LENGTH) != 1)
            give_up("libcrypto refuses the signature");
    return (now() - start) / TIMES;
}

int main(int count, char **words) {
    int runs = count > 1 ? atoi(words[1]) : 100;
    struct bytes key = {0}, message = {0}, signature = {0}, der = {0};
    uint8_t content[MESSAGE], digest[SHA256_DIGEST_LENGTH];
    memset(content, 'm', sizeof content);
    bytes_add(&message, content, sizeof content);
    SHA256(content, sizeof content, digest);
    EVP_PKEY *private_key = p256_new_key();
    p256_add_public_key(&key, private_key);
    p256_add_signature(&signature, private_key, &message);
    const char *name = "ecdsa-p256:";
    if (!bytes_add_from_base64(&der, signature.at + strlen(name), signature.len - strlen(name)))
        give_up("the signature's text can't be read");
    EVP_PKEY_CTX *context = context_of(private_key);
    double library = 1e9, libcrypto = 1e9;
    for (int i = 0; i < runs; i++) {
        double first = by_library(&key, &message, &signature), second = by_libcrypto(context, &der, digest);
        library = first < library ? first : library;
        libcrypto = second < libcrypto ? second : libcrypto;
    }
    printf("library %.1f libcrypto %.1f us, %.2f times as long\n", library, libcrypto, library / libcrypto);
    EVP_PKEY_CTX_free(context);
    EVP_PKEY_free(private_key);
    bytes_free(&key);
    bytes_free(&message);
    bytes_free(&signature);
    bytes_free(&der);
    return 0;
}
