/* All memory that a log takes is given back: where it is closed, where another is opened or resumed in its place, and where a call is refused. What the
 * library takes and gives back is counted: link with -Wl,--wrap=malloc,--wrap=realloc,--wrap=calloc,--wrap=free. */
#include "../p256.h"
#include "check.h"
#include "logs.h"

/* How many blocks are taken and not given back. */
static long blocks;

void *__real_malloc(size_t size);
void *__real_realloc(void *at, size_t size);
void *__real_calloc(size_t count, size_t size);
void __real_free(void *at);
void *__wrap_malloc(size_t size);
void *__wrap_realloc(void *at, size_t size);
void *__wrap_calloc(size_t count, size_t size);
void __wrap_free(void *at);

void *__wrap_malloc(size_t size) {
    void *to = __real_malloc(size);
    blocks += to != NULL;
    return to;
}

void *__wrap_realloc(void *at, size_t size) {
    bool is_new = !at;
    void *to = __real_realloc(at, size);
    blocks += is_new && to;
    return to;
}

void *__wrap_calloc(size_t count, size_t size) {
    void *to = __real_calloc(count, size);
    blocks += to != NULL;
    return to;
}

void __wrap_free(void *at) {
    blocks -= at != NULL;
    __real_free(at);
}

/* The text of a hash, and its length. */
#define HASH (const uint8_t *)"sha256:e3b0c44298fc1c149afbf4c8996fb92427ae41e4649b934ca495991b7852b855", 71

static uint8_t text[1 << 16];
static size_t used;

/* Saves a log. */
static size_t save(struct warg_log *log, uint8_t *saved, size_t room) {
    size_t len = 0;
    CHECK(warg_save(log, saved, room, &len) == WARG_OK);
    return len;
}

/* Calls that only look, and calls that are refused. */
static void look(struct warg_log *log, const struct bytes *envelope, const struct signer *alice) {
    struct warg_asked asked;
    struct warg_release release;
    struct warg_kept kept;
    struct warg_comparison comparison;
    struct warg_log none = {0};
    for (int i = 0; i < 3; i++) {
        CHECK(warg_ask(log, envelope->at, envelope->len, text, sizeof text, &used, &asked) == WARG_OK);
        CHECK(warg_ask(log, (const uint8_t *)"\x0b", 1, text, sizeof text, &used, &asked) == WARG_NO_ENVELOPE);
        CHECK(warg_append(log, envelope->at, envelope->len, text, 3, &asked, true, text + 4, 9, &used) == WARG_BAD_ARGUMENT);
        CHECK(warg_head(log, text, sizeof text, &used) == WARG_OK);
        CHECK(warg_latest(log, (const uint8_t *)">=1", 3, text, sizeof text, &used, &release) == WARG_OK);
        CHECK(warg_latest(log, (const uint8_t *)">=x", 3, text, sizeof text, &used, &release) == WARG_BAD_ARGUMENT);
        CHECK(warg_key(log, alice->key_id.at, alice->key_id.len, text, sizeof text, &used) == WARG_OK);
        CHECK(warg_compare(log, &none, &comparison) == WARG_NOT_OPEN);
        CHECK(warg_verify_checkpoint(log, 1, HASH, HASH, 1, HASH, HASH) == WARG_BAD_ARGUMENT);
        warg_record(log, 0, text, sizeof text, &used, &kept);
        CHECK(warg_resume(log, WARG_PACKAGE, (const uint8_t *)"[]", 2, text, sizeof text, &used) == WARG_BAD_ARGUMENT);
        CHECK(warg_open(log, 9) == WARG_BAD_ARGUMENT);
    }
}

/* A log from its first record to its end: closed, or replaced by another. */
static void live(bool is_resumed, const struct signer *alice, const struct signer *bob) {
    static uint8_t saved[1 << 15];
    struct bytes next = {0}, first = {0}, none = {0};
    long before = blocks;
    struct warg_log log = package_log(4, alice, bob);
    CHECK(blocks > before);
    size_t len = save(&log, saved, sizeof saved);
    next_envelope(&next, &log, 4, alice, bob);
    publish(&first, 0, &none, alice, bob);
    if (is_resumed)
        CHECK(warg_resume(&log, WARG_PACKAGE, saved, len, text, sizeof text, &used) == WARG_OK);
    look(&log, &next, alice);
    CHECK(warg_append_signed(&log, first.at, first.len, text, sizeof text, &used) == WARG_REFUSED);
    CHECK(warg_append_signed(&log, next.at, next.len, text, sizeof text, &used) == WARG_OK);
    bytes_free(&next);
    bytes_free(&first);
    /* In the place of an open log: one of no records, and one of another kind that goes on from nothing. */
    CHECK(warg_open(&log, WARG_OPERATOR) == WARG_OK);
    CHECK(warg_resume(&log, WARG_PACKAGE, saved, len, text, sizeof text, &used) == WARG_OK);
    CHECK(warg_resume_counted(&log, WARG_PACKAGE, saved, len, 4, text, sizeof text, &used) == WARG_OK);
    CHECK(blocks > before);
    warg_close(&log);
    CHECK(blocks == before);
    warg_close(&log);
    CHECK(blocks == before);
}

int main(void) {
    struct signer alice = p256_signer(), bob = p256_signer();
    long before = blocks;
    for (int i = 0; i < 4; i++)
        live(i % 2, &alice, &bob);
    CHECK(warg_log_id(WARG_PACKAGE, (const uint8_t *)"a:b", 3, text, sizeof text, &used) == WARG_OK);
    CHECK(warg_log_id(WARG_PACKAGE, (const uint8_t *)"a", 1, text, sizeof text, &used) == WARG_BAD_ARGUMENT);
    CHECK(warg_leaf(HASH, HASH, text, sizeof text, &used) == WARG_OK);
    CHECK(warg_checkpoint_message(1, HASH, HASH, 1, text, sizeof text, &used) == WARG_OK);
    CHECK(warg_checkpoint_message(1, HASH, HASH, 1, text, 0, &used) == WARG_TOO_SMALL);
    CHECK(blocks == before);
    struct warg_log operators = operator_log(&alice);
    long opened = blocks;
    CHECK(opened > before);
    for (int i = 0; i < 2; i++) {
        const uint8_t *signature = (const uint8_t *)(i ? "ecdsa-p256:AAAA" : "");
        uint32_t status = warg_verify_checkpoint(&operators, 1, HASH, HASH, 1, alice.key_id.at, alice.key_id.len, signature, i ? 15 : 0);
        CHECK(status == (i ? WARG_REFUSED : WARG_BAD_ARGUMENT));
    }
    CHECK(blocks == opened);
    warg_close(&operators);
    CHECK(blocks == before);
    p256_signer_free(&alice);
    p256_signer_free(&bob);
    CHECK(blocks == 0);
    puts("all memory was given back");
    return 0;
}
