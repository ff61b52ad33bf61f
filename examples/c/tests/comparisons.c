/* What two checkpoints of a registry are to each other, and two leaves at one place of its log: each case, texts that are of no form, and each
 * request for memory refused. The registry has 8 leaves; a forked one has another leaf at place 4. */
#include "check.h"
#include "refusing.h"

#include <warg.h>

#define TEXT(words) (const uint8_t *)(words), strlen(words)
#define ID_LEN 71
#define COUNT 8
#define PARTED 4

/* A text of an id or of a root. */
struct id {
    char text[ID_LEN + 1];
};
/* What a registry signs and shows: the texts have a zero at their end. */
struct checkpoint {
    uint64_t length;
    struct id log_root, map_root;
};
struct leaf {
    struct checkpoint under;
    struct id log, record;
    char proof[3000];
};

static struct id id_of(unsigned number) {
    struct id id;
    snprintf(id.text, sizeof id.text, "sha256:%064x", number);
    return id;
}

static struct id log_of(unsigned place) { return id_of(place == PARTED ? 0xabc : place % 3); }
static struct id record_of(unsigned place, bool is_fork) { return id_of(place == PARTED && is_fork ? 0xf0f : 0x100 + place); }

static struct warg_registry registry_of(unsigned count, bool is_fork) {
    struct warg_registry registry = {0};
    CHECK(warg_registry_open(&registry) == WARG_OK);
    for (unsigned at = 0; at < count; at++) {
        struct id log = log_of(at), record = record_of(at, is_fork);
        uint64_t place;
        CHECK(warg_registry_push(&registry, TEXT(log.text), TEXT(record.text), &place) == WARG_OK && place == at);
    }
    return registry;
}

static struct checkpoint checkpoint_of(unsigned count, bool is_fork) {
    struct warg_registry registry = registry_of(count, is_fork);
    struct checkpoint found = {count, {{0}}, {{0}}};
    uint8_t text[2 * ID_LEN];
    size_t used;
    struct warg_roots roots;
    CHECK(warg_registry_roots(&registry, text, sizeof text, &used, &roots) == WARG_OK && used == sizeof text);
    memcpy(found.log_root.text, text, ID_LEN);
    memcpy(found.map_root.text, text + ID_LEN, ID_LEN);
    warg_registry_close(&registry);
    return found;
}

/* The proof that a registry begins with its first leaves. */
static void consistency_of(unsigned first, unsigned count, bool is_fork, char *proof, size_t size) {
    struct warg_registry registry = registry_of(count, is_fork);
    size_t used;
    CHECK(warg_registry_consistency(&registry, first, (uint8_t *)proof, size - 1, &used) == WARG_OK);
    proof[used] = 0;
    warg_registry_close(&registry);
}

static struct leaf leaf_of(unsigned place, unsigned count, bool is_fork) {
    struct leaf found = {checkpoint_of(count, is_fork), log_of(place), record_of(place, is_fork), {0}};
    struct warg_registry registry = registry_of(count, is_fork);
    size_t used;
    CHECK(warg_registry_inclusion(&registry, place, (uint8_t *)found.proof, sizeof found.proof - 1, &used) == WARG_OK);
    warg_registry_close(&registry);
    return found;
}

#define NO_CASE 99

static uint32_t status_of(struct checkpoint old, struct checkpoint new, const char *proof, uint32_t *comparison) {
    return warg_compare_checkpoints(old.length, TEXT(old.log_root.text), TEXT(old.map_root.text), new.length,
                                    TEXT(new.log_root.text), TEXT(new.map_root.text), TEXT(proof), comparison);
}
static uint32_t compared(struct checkpoint old, struct checkpoint new, const char *proof) {
    uint32_t found = NO_CASE;
    CHECK(status_of(old, new, proof, &found) == WARG_OK);
    return found;
}
static bool is_of_no_form(struct checkpoint old, struct checkpoint new, const char *proof) {
    uint32_t found = NO_CASE;
    return status_of(old, new, proof, &found) == WARG_BAD_ARGUMENT && found == NO_CASE;
}

static uint32_t status_of_leaves(uint64_t place, struct leaf old, struct leaf new, uint32_t *comparison) {
    return warg_compare_leaves(place, old.under.length, TEXT(old.under.log_root.text), TEXT(old.log.text), TEXT(old.record.text),
                               TEXT(old.proof), new.under.length, TEXT(new.under.log_root.text), TEXT(new.log.text),
                               TEXT(new.record.text), TEXT(new.proof), comparison);
}
static uint32_t compared_leaves(uint64_t place, struct leaf old, struct leaf new) {
    uint32_t found = NO_CASE;
    CHECK(status_of_leaves(place, old, new, &found) == WARG_OK);
    return found;
}
static bool leaf_is_of_no_form(struct leaf wrong, struct leaf right) {
    uint32_t found = NO_CASE;
    CHECK(status_of_leaves(PARTED, right, wrong, &found) == WARG_BAD_ARGUMENT && found == NO_CASE);
    return status_of_leaves(PARTED, wrong, right, &found) == WARG_BAD_ARGUMENT && found == NO_CASE;
}

static void set(struct id *id, const char *text) { snprintf(id->text, sizeof id->text, "%s", text); }

static void test_checkpoints(void) {
    char proof[3000];
    for (unsigned first = 0; first <= COUNT; first++)
        for (unsigned second = 0; second <= COUNT; second++) {
            struct checkpoint old = checkpoint_of(first, false), new = checkpoint_of(second, false);
            proof[0] = 0;
            if (first < second)
                consistency_of(first, second, false, proof, sizeof proof);
            uint32_t wanted = first == second ? WARG_CHECKPOINT_SAME
                              : first < second ? WARG_CHECKPOINT_GOES_ON
                                               : WARG_CHECKPOINT_GOES_BACK;
            CHECK(compared(old, new, proof) == wanted);
        }
    struct checkpoint own = checkpoint_of(COUNT, false), fork = checkpoint_of(COUNT, true), other_map = own, other_log = own;
    other_map.map_root = fork.map_root;
    other_log.log_root = fork.log_root;
    consistency_of(6, COUNT, false, proof, sizeof proof);
    CHECK(compared(own, own, proof) == WARG_CHECKPOINT_SAME);
    CHECK(compared(own, fork, "") == WARG_CHECKPOINT_FORK && compared(fork, own, proof) == WARG_CHECKPOINT_FORK);
    CHECK(compared(own, other_map, "") == WARG_CHECKPOINT_FORK && compared(other_map, own, proof) == WARG_CHECKPOINT_FORK);
    CHECK(compared(own, other_log, "") == WARG_CHECKPOINT_FORK && compared(other_log, own, proof) == WARG_CHECKPOINT_FORK);
    struct checkpoint before = checkpoint_of(6, false);
    CHECK(compared(before, own, proof) == WARG_CHECKPOINT_GOES_ON);
    CHECK(compared(before, own, "") == WARG_CHECKPOINT_NOT_SHOWN);
    CHECK(compared(before, fork, proof) == WARG_CHECKPOINT_NOT_SHOWN);
    consistency_of(6, COUNT, true, proof, sizeof proof);
    CHECK(compared(before, fork, proof) == WARG_CHECKPOINT_NOT_SHOWN);
    CHECK(compared(fork, before, proof) == WARG_CHECKPOINT_GOES_BACK);
    consistency_of(PARTED, COUNT, true, proof, sizeof proof);
    CHECK(compared(checkpoint_of(PARTED, false), fork, proof) == WARG_CHECKPOINT_GOES_ON);
    own.length = UINT64_MAX;
    CHECK(compared(own, own, "") == WARG_CHECKPOINT_SAME && compared(fork, own, "") == WARG_CHECKPOINT_NOT_SHOWN);
    CHECK(compared(own, fork, "") == WARG_CHECKPOINT_GOES_BACK);
}

static void test_leaves(void) {
    struct leaf fork = leaf_of(PARTED, COUNT, true);
    for (unsigned count = 1; count <= COUNT; count++)
        for (unsigned place = 0; place < count; place++) {
            struct leaf own = leaf_of(place, count, false), other = leaf_of(place, COUNT, true);
            uint32_t wanted = place == PARTED ? WARG_LEAF_FORK : WARG_LEAF_SAME;
            CHECK(compared_leaves(place, own, other) == wanted && compared_leaves(place, other, own) == wanted);
            CHECK(compared_leaves(place, own, leaf_of(place, COUNT, false)) == WARG_LEAF_SAME);
        }
    struct leaf own = leaf_of(PARTED, 6, false);
    struct leaf wrong[] = {own, own, own, own, own};
    wrong[0].proof[0] = 0;
    memcpy(wrong[1].proof, fork.proof, sizeof fork.proof);
    wrong[2].record = fork.record;
    wrong[3].log = fork.record;
    wrong[4].under = fork.under;
    for (unsigned at = 0; at < sizeof wrong / sizeof *wrong; at++) {
        CHECK(compared_leaves(PARTED, wrong[at], fork) == WARG_LEAF_NOT_SHOWN);
        CHECK(compared_leaves(PARTED, fork, wrong[at]) == WARG_LEAF_NOT_SHOWN);
        CHECK(compared_leaves(PARTED, wrong[at], wrong[at]) == WARG_LEAF_NOT_SHOWN);
    }
    CHECK(compared_leaves(3, own, fork) == WARG_LEAF_NOT_SHOWN && compared_leaves(UINT64_MAX, own, fork) == WARG_LEAF_NOT_SHOWN);
    /* The map is not looked at. */
    set(&own.under.map_root, "none");
    CHECK(compared_leaves(PARTED, own, fork) == WARG_LEAF_FORK);
}

static void test_forms(void) {
    static const char *const no_texts[] = {"", "sha256", "sha256:00", "!", "\xff"};
    static const char *const no_proofs[] = {"A", "AA==", "!", "\xff"};
    struct checkpoint old = checkpoint_of(6, false), new = checkpoint_of(COUNT, false), wrong;
    struct leaf own = leaf_of(PARTED, 6, false), fork = leaf_of(PARTED, COUNT, true), bad;
    for (unsigned at = 0; at < sizeof no_texts / sizeof *no_texts; at++) {
        wrong = old;
        set(&wrong.log_root, no_texts[at]);
        CHECK(is_of_no_form(wrong, new, "") && is_of_no_form(new, wrong, ""));
        wrong = old;
        set(&wrong.map_root, no_texts[at]);
        CHECK(is_of_no_form(wrong, new, "") && is_of_no_form(new, wrong, ""));
        bad = own;
        set(&bad.under.log_root, no_texts[at]);
        CHECK(leaf_is_of_no_form(bad, fork));
        bad = own;
        set(&bad.log, no_texts[at]);
        CHECK(leaf_is_of_no_form(bad, fork));
        bad = own;
        set(&bad.record, no_texts[at]);
        CHECK(leaf_is_of_no_form(bad, fork));
    }
    for (unsigned at = 0; at < sizeof no_proofs / sizeof *no_proofs; at++) {
        CHECK(is_of_no_form(old, new, no_proofs[at]));
        bad = own;
        snprintf(bad.proof, sizeof bad.proof, "%s", no_proofs[at]);
        CHECK(leaf_is_of_no_form(bad, fork));
    }
}

/* Refuses each request of both calls in turn: they then say that there was no memory, or do without. */
static long test_memory(void) {
    char proof[3000];
    consistency_of(6, COUNT, false, proof, sizeof proof);
    struct checkpoint old = checkpoint_of(6, false), new = checkpoint_of(COUNT, false);
    struct leaf own = leaf_of(PARTED, 6, false), fork = leaf_of(PARTED, COUNT, true);
    long all = 0;
    for (unsigned call = 0; call < 2; call++)
        for (long place = 0;; place++) {
            uint32_t found = NO_CASE, wanted = call ? WARG_LEAF_FORK : WARG_CHECKPOINT_GOES_ON;
            refuse_request(place);
            uint32_t status = call ? status_of_leaves(PARTED, own, fork, &found) : status_of(old, new, proof, &found);
            bool is_refused = was_refused();
            CHECK(status == WARG_OK || (is_refused && status == WARG_OUT_OF_MEMORY));
            CHECK(found == (status == WARG_OK ? wanted : NO_CASE));
            if (!is_refused) {
                all += place;
                break;
            }
        }
    return all;
}

int main(void) {
    test_checkpoints();
    test_leaves();
    test_forms();
    printf("%ld requests refused\n", test_memory());
    return 0;
}
