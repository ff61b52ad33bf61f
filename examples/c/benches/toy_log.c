/* Times the appending of a package log whose records are signed by the toy scheme: `toy_log RUNS < LOG`, an envelope a line in hex. Prints the least time of the
 * runs in nanoseconds a record: asking, verifying by libcrypto, appending. */
#include "../appending.h"

#include <openssl/evp.h>
#include <stdlib.h>
#include <string.h>
#include <time.h>

static double now(void) {
    struct timespec time;
    timespec_get(&time, TIME_UTC);
    return (double)time.tv_sec * 1e9 + (double)time.tv_nsec;
}

/* A key is the bytes of a name, a signature the SHA-256 of these and the message. */
static bool toy_verify(const uint8_t *question, const struct warg_asked *asked, EVP_MD_CTX *context) {
    static struct bytes key, signature;
    uint8_t digest[32];
    const uint8_t *message = question + asked->key_len, *text = message + asked->message_len;
    key.len = signature.len = 0;
    return asked->key_len > 4 && asked->signature_len > 4 && !memcmp(question, "toy:", 4) && !memcmp(text, "toy:", 4) &&
           bytes_add_from_base64(&key, question + 4, asked->key_len - 4) &&
           bytes_add_from_base64(&signature, text + 4, asked->signature_len - 4) && signature.len == 32 &&
           EVP_DigestInit_ex(context, EVP_sha256(), NULL) == 1 && EVP_DigestUpdate(context, key.at, key.len) == 1 &&
           EVP_DigestUpdate(context, message, asked->message_len) == 1 && EVP_DigestFinal_ex(context, digest, NULL) == 1 &&
           !memcmp(digest, signature.at, 32);
}

struct times {
    double asking, verifying, appending;
};

static struct times run(const struct bytes *envelopes, size_t count, EVP_MD_CTX *context) {
    struct warg_log log = {0};
    struct warg_asked asked;
    static uint8_t question[1 << 20], text[1024];
    struct times times = {0};
    size_t used = 0;
    if (warg_open(&log, WARG_PACKAGE) != WARG_OK)
        give_up("no log");
    for (size_t i = 0; i < count; i++) {
        const struct bytes *it = &envelopes[i];
        double start = now();
        uint32_t status = warg_ask(&log, it->at, it->len, question, sizeof question, &used, &asked);
        double asked_at = now();
        bool belongs = status == WARG_OK && toy_verify(question, &asked, context);
        double verified_at = now();
        status = warg_append(&log, it->at, it->len, question, used, &asked, belongs, text, sizeof text, &used);
        times.appending += now() - verified_at;
        times.verifying += verified_at - asked_at;
        times.asking += asked_at - start;
        if (status != WARG_OK)
            give_up(status_name(status));
    }
    warg_close(&log);
    return times;
}

int main(int argc, char **argv) {
    int runs = argc > 1 ? atoi(argv[1]) : 9;
    struct bytes *envelopes = NULL, line = {0};
    size_t count = 0;
    for (; bytes_read_hex(&line, stdin); count++) {
        envelopes = realloc(envelopes, (count + 1) * sizeof *envelopes);
        if (!envelopes)
            give_up("out of memory");
        envelopes[count] = (struct bytes){0};
        bytes_add(&envelopes[count], line.at, line.len);
    }
    struct times least = {0};
    EVP_MD_CTX *context = EVP_MD_CTX_new();
    for (int i = 0; i < runs; i++) {
        struct times times = run(envelopes, count, context);
        if (!i || times.asking + times.appending < least.asking + least.appending)
            least = times;
    }
    double each = (double)(count ? count : 1);
    printf("ask %.0f verify %.0f append %.0f\n", least.asking / each, least.verifying / each, least.appending / each);
    return 0;
}
