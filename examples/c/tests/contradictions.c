/* What a registry showed twice under one root: two answers about the head of one log, and two beginnings of one log. Each case that no collision
 * is needed for, texts that are of no form, and each request for memory refused. The registry has 8 leaves of three logs. */
#include "check.h"
#include "refusing.h"

#include <warg.h>

#define TEXT(words) (const uint8_t *)(words), strlen(words)
#define ID_LEN 71
#define COUNT 8
#define NO_CASE 99

/* A text of an id or of a root. */
struct id {
    char text[ID_LEN + 1];
};
/* An answer about the head of a log: "" says that it has none. */
struct answer {
    struct id record;
    char proof[11000];
};
/* An older checkpoint, and the proof that the log of all leaves begins with its own. */
struct beginning {
    uint64_t length;
    struct id log_root, map_root;
    char proof[3000];
};

static struct id id_of(unsigned number) {
    struct id id;
    snprintf(id.text, sizeof id.text, "sha256:%064x", number);
    return id;
}

static struct warg_registry registry_of(unsigned count) {
    struct warg_registry registry = {0};
    CHECK(warg_registry_open(&registry) == WARG_OK);
    for (unsigned at = 0; at < count; at++) {
        struct id log = id_of(at % 3), record = id_of(0x100 + at);
        uint64_t place;
        CHECK(warg_registry_push(&registry, TEXT(log.text), TEXT(record.text), &place) == WARG_OK && place == at);
    }
    return registry;
}

static void roots_of(struct warg_registry *registry, struct id *log_root, struct id *map_root) {
    uint8_t text[2 * ID_LEN];
    size_t used;
    struct warg_roots roots;
    CHECK(warg_registry_roots(registry, text, sizeof text, &used, &roots) == WARG_OK && used == sizeof text);
    memset(log_root, 0, sizeof *log_root);
    memset(map_root, 0, sizeof *map_root);
    memcpy(log_root->text, text, ID_LEN);
    memcpy(map_root->text, text + ID_LEN, ID_LEN);
}

static struct id map_root_of(unsigned count) {
    struct warg_registry registry = registry_of(count);
    struct id log_root, map_root;
    roots_of(&registry, &log_root, &map_root);
    warg_registry_close(&registry);
    return map_root;
}

static struct answer answer_of(unsigned count, unsigned log) {
    struct warg_registry registry = registry_of(count);
    struct answer found = {{{0}}, {0}};
    struct id id = id_of(log);
    uint8_t text[sizeof found.record.text + sizeof found.proof];
    size_t used;
    struct warg_log_head head;
    CHECK(warg_registry_head(&registry, TEXT(id.text), text, sizeof text, &used, &head) == WARG_OK);
    memcpy(found.record.text, text, head.record_id_len);
    memcpy(found.proof, text + head.record_id_len, head.proof_len);
    warg_registry_close(&registry);
    return found;
}

static struct beginning beginning_of(unsigned first) {
    struct warg_registry old = registry_of(first), all = registry_of(COUNT);
    struct beginning found = {first, {{0}}, {{0}}, {0}};
    size_t used;
    roots_of(&old, &found.log_root, &found.map_root);
    CHECK(warg_registry_consistency(&all, first, (uint8_t *)found.proof, sizeof found.proof - 1, &used) == WARG_OK);
    warg_registry_close(&old);
    warg_registry_close(&all);
    return found;
}

static void set(struct id *id, const char *text) { snprintf(id->text, sizeof id->text, "%s", text); }

static uint32_t status_of_heads(struct id root, struct id log, const struct answer *one, const struct answer *other, uint32_t *comparison) {
    return warg_compare_heads(TEXT(root.text), TEXT(log.text), TEXT(one->record.text), TEXT(one->proof), TEXT(other->record.text),
                              TEXT(other->proof), comparison);
}
static uint32_t compared_heads(struct id root, unsigned log, const struct answer *one, const struct answer *other) {
    uint32_t found = NO_CASE, turned = NO_CASE;
    CHECK(status_of_heads(root, id_of(log), one, other, &found) == WARG_OK);
    CHECK(status_of_heads(root, id_of(log), other, one, &turned) == WARG_OK && turned == found);
    return found;
}
static bool heads_are_of_no_form(struct id root, struct id log, const struct answer *one, const struct answer *other) {
    uint32_t found = NO_CASE;
    CHECK(status_of_heads(root, log, other, one, &found) == WARG_BAD_ARGUMENT && found == NO_CASE);
    return status_of_heads(root, log, one, other, &found) == WARG_BAD_ARGUMENT && found == NO_CASE;
}

static uint32_t status_of(uint64_t length, struct id root, const struct beginning *one, const struct beginning *other, uint32_t *comparison) {
    return warg_compare_beginnings(length, TEXT(root.text), one->length, TEXT(one->log_root.text), TEXT(one->map_root.text), TEXT(one->proof),
                                   other->length, TEXT(other->log_root.text), TEXT(other->map_root.text), TEXT(other->proof), comparison);
}
static uint32_t compared(struct id root, const struct beginning *one, const struct beginning *other) {
    uint32_t found = NO_CASE, turned = NO_CASE;
    CHECK(status_of(COUNT, root, one, other, &found) == WARG_OK);
    CHECK(status_of(COUNT, root, other, one, &turned) == WARG_OK && turned == found);
    return found;
}
static bool is_of_no_form(struct id root, const struct beginning *one, const struct beginning *other) {
    uint32_t found = NO_CASE;
    CHECK(status_of(COUNT, root, other, one, &found) == WARG_BAD_ARGUMENT && found == NO_CASE);
    return status_of(COUNT, root, one, other, &found) == WARG_BAD_ARGUMENT && found == NO_CASE;
}

/* The log 7 has no head. */
static void test_heads(void) {
    struct id root = map_root_of(COUNT);
    for (unsigned log = 0; log < 8; log++) {
        struct answer own = answer_of(COUNT, log), older = answer_of(3, log), other = answer_of(COUNT, (log + 1) % 3);
        CHECK((strlen(own.record.text) == ID_LEN) == (log < 3));
        CHECK(compared_heads(root, log, &own, &own) == WARG_HEAD_SAME);
        struct answer wrong[] = {own, own, own, older};
        set(&wrong[0].record, log < 3 ? "" : other.record.text);
        wrong[1].record = id_of(0xf0f);
        memcpy(wrong[2].proof, other.proof, sizeof other.proof);
        for (unsigned at = 0; at < sizeof wrong / sizeof *wrong; at++) {
            CHECK(compared_heads(root, log, &own, &wrong[at]) == WARG_HEAD_NOT_SHOWN);
            CHECK(compared_heads(root, log, &wrong[at], &wrong[at]) == WARG_HEAD_NOT_SHOWN);
        }
        CHECK(compared_heads(map_root_of(3), log, &own, &own) == WARG_HEAD_NOT_SHOWN);
        CHECK(compared_heads(map_root_of(3), log, &older, &older) == WARG_HEAD_SAME);
    }
}

static void test_beginnings(void) {
    struct warg_registry registry = registry_of(COUNT);
    struct id root, map_root;
    roots_of(&registry, &root, &map_root);
    warg_registry_close(&registry);
    for (unsigned first = 0; first <= COUNT; first++)
        for (unsigned second = 0; second <= COUNT; second++) {
            struct beginning one = beginning_of(first), other = beginning_of(second);
            CHECK(compared(root, &one, &other) == (first == second ? WARG_BEGINNING_SAME : WARG_BEGINNING_TWO_LENGTHS));
        }
    struct beginning one = beginning_of(6), other = beginning_of(5), fork = one;
    fork.map_root = other.map_root;
    CHECK(compared(root, &one, &fork) == WARG_BEGINNING_FORK && compared(root, &fork, &fork) == WARG_BEGINNING_SAME);
    struct beginning wrong[] = {one, one, one, fork};
    wrong[0].proof[0] = 0;
    memcpy(wrong[1].proof, other.proof, sizeof other.proof);
    wrong[2].log_root = other.log_root;
    wrong[3].length = 5;
    for (unsigned at = 0; at < sizeof wrong / sizeof *wrong; at++) {
        CHECK(compared(root, &one, &wrong[at]) == WARG_BEGINNING_NOT_SHOWN);
        CHECK(compared(root, &wrong[at], &wrong[at]) == WARG_BEGINNING_NOT_SHOWN);
    }
    CHECK(compared(one.log_root, &one, &one) == WARG_BEGINNING_NOT_SHOWN);
    uint32_t found = NO_CASE;
    CHECK(status_of(COUNT + 1, root, &one, &one, &found) == WARG_OK && found == WARG_BEGINNING_NOT_SHOWN);
}

static void test_forms(void) {
    static const char *const no_texts[] = {"sha256", "sha256:00", "!", "\xff"};
    static const char *const no_proofs[] = {"A", "AA==", "!", "\xff"};
    struct id root = map_root_of(COUNT), log = id_of(1), wrong;
    struct answer answer = answer_of(COUNT, 1), none = answer_of(COUNT, 7), bad_answer = none;
    struct beginning beginning = beginning_of(6), bad = beginning;
    for (unsigned at = 0; at < sizeof no_texts / sizeof *no_texts; at++) {
        set(&wrong, no_texts[at]);
        CHECK(heads_are_of_no_form(wrong, log, &answer, &none) && heads_are_of_no_form(root, wrong, &answer, &none));
        bad_answer = answer;
        bad_answer.record = wrong;
        CHECK(heads_are_of_no_form(root, log, &bad_answer, &none));
        CHECK(is_of_no_form(wrong, &beginning, &beginning));
        bad = beginning;
        bad.log_root = wrong;
        CHECK(is_of_no_form(root, &bad, &beginning));
        bad = beginning;
        bad.map_root = wrong;
        CHECK(is_of_no_form(root, &bad, &beginning));
    }
    /* "" is a head alone. */
    set(&wrong, "");
    CHECK(heads_are_of_no_form(wrong, log, &answer, &none) && heads_are_of_no_form(root, wrong, &answer, &none));
    bad = beginning;
    bad.map_root = wrong;
    CHECK(is_of_no_form(wrong, &beginning, &beginning) && is_of_no_form(root, &bad, &beginning));
    for (unsigned at = 0; at < sizeof no_proofs / sizeof *no_proofs; at++) {
        bad_answer = none;
        snprintf(bad_answer.proof, sizeof bad_answer.proof, "%s", no_proofs[at]);
        CHECK(heads_are_of_no_form(root, log, &bad_answer, &answer));
        bad = beginning;
        snprintf(bad.proof, sizeof bad.proof, "%s", no_proofs[at]);
        CHECK(is_of_no_form(root, &bad, &beginning));
    }
    bad_answer.proof[0] = 0;
    CHECK(heads_are_of_no_form(root, log, &bad_answer, &answer));
}

/* Refuses each request of both calls in turn: they then say that there was no memory, or do without. */
static long test_memory(void) {
    struct warg_registry registry = registry_of(COUNT);
    struct id root, map_root, log = id_of(1);
    roots_of(&registry, &root, &map_root);
    warg_registry_close(&registry);
    struct answer answer = answer_of(COUNT, 1);
    struct beginning one = beginning_of(6), other = beginning_of(5);
    long all = 0;
    for (unsigned call = 0; call < 2; call++)
        for (long place = 0;; place++) {
            uint32_t found = NO_CASE, wanted = call ? WARG_HEAD_SAME : WARG_BEGINNING_TWO_LENGTHS;
            refuse_request(place);
            uint32_t status =
                call ? status_of_heads(map_root, log, &answer, &answer, &found) : status_of(COUNT, root, &one, &other, &found);
            bool is_refused = was_refused();
            CHECK(status == WARG_OK || (is_refused && status == WARG_OUT_OF_MEMORY));
            CHECK(found == (status == WARG_OK ? wanted : NO_CASE));
            if (!is_refused) {
                all += place;
                break;
            }
        }
    return all;
}

int main(void) {
    test_heads();
    test_beginnings();
    test_forms();
    printf("%ld requests refused\n", test_memory());
    return 0;
}
