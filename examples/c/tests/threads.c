/* Eight threads with a log each at once, and one log that is handed from thread to thread. */
#include "../appending.h"
#include "../p256.h"
#include "../publishing.h"
#include "check.h"

#include <pthread.h>

enum { THREADS = 8, RECORDS = 40 };

static struct bytes envelopes[RECORDS];
static struct bytes last_id;

static struct warg_log shared;
static size_t next_place;
static pthread_mutex_t turn = PTHREAD_MUTEX_INITIALIZER;

static void make_envelopes(void) {
    struct signer alice = p256_signer(), bob = p256_signer();
    struct warg_log log = {0};
    struct bytes text = {0};
    CHECK(warg_open(&log, WARG_PACKAGE) == WARG_OK);
    for (size_t place = 0; place < RECORDS; place++) {
        CHECK(head_of(&log, &last_id) == WARG_OK);
        publish(&envelopes[place], place, &last_id, &alice, &bob);
        CHECK(append(&log, &envelopes[place], &text) == WARG_OK);
    }
    CHECK(head_of(&log, &last_id) == WARG_OK);
    warg_close(&log);
    bytes_free(&text);
    p256_signer_free(&alice);
    p256_signer_free(&bob);
}

static void ends_alike(struct warg_log *log) {
    struct bytes head = {0};
    CHECK(head_of(log, &head) == WARG_OK);
    CHECK(head.len == last_id.len && !memcmp(head.at, last_id.at, head.len));
    bytes_free(&head);
}

/* A log of its own, five times. */
static void *alone(void *none) {
    struct bytes text = {0};
    for (int turns = 0; turns < 5; turns++) {
        struct warg_log log = {0};
        CHECK(warg_open(&log, WARG_PACKAGE) == WARG_OK);
        for (size_t place = 0; place < RECORDS; place++)
            CHECK(append(&log, &envelopes[place], &text) == WARG_OK);
        ends_alike(&log);
        warg_close(&log);
    }
    bytes_free(&text);
    return none;
}

/* One log, in turns. */
static void *in_turn(void *none) {
    struct bytes text = {0};
    for (bool done = false; !done;) {
        pthread_mutex_lock(&turn);
        done = next_place == RECORDS;
        if (!done)
            CHECK(append(&shared, &envelopes[next_place++], &text) == WARG_OK);
        pthread_mutex_unlock(&turn);
    }
    bytes_free(&text);
    return none;
}

static void run(void *work(void *)) {
    pthread_t threads[THREADS];
    for (size_t i = 0; i < THREADS; i++)
        CHECK(pthread_create(&threads[i], NULL, work, NULL) == 0);
    for (size_t i = 0; i < THREADS; i++)
        CHECK(pthread_join(threads[i], NULL) == 0);
}

int main(void) {
    make_envelopes();
    run(alone);
    CHECK(warg_open(&shared, WARG_PACKAGE) == WARG_OK);
    run(in_turn);
    ends_alike(&shared);
    warg_close(&shared);
    for (size_t place = 0; place < RECORDS; place++)
        bytes_free(&envelopes[place]);
    bytes_free(&last_id);
    puts("8 threads with a log each, and one log in 8 threads");
    return 0;
}
