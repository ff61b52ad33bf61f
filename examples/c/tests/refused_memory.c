/* Refuses each request for memory in turn, in each call, on logs that have their records and on resumed ones. The call then says that there was no
 * memory, and all logs are as they were; or it does without, and at most gives an error without its text. Made again it does what it does with memory. */
#include "../p256.h"
#include "check.h"
#include "logs.h"
#include "refusing.h"

static struct warg_log package, operators, other, fresh;
static struct bytes next, forged, wrong, third, begin, other_begin, yes, begin_yes;
static struct warg_asked asked, begin_asked;
static struct bytes checkpoint_signature;
static struct signer alice, bob, other_alice;
static uint8_t text[1 << 16], saved[2][1 << 14];
static size_t saved_len[2], used;
static struct warg_release release;

static const uint8_t *bytes_of(const char *words) {
    return (const uint8_t *)words;
}

static uint32_t open_again(void) { return warg_open(&fresh, WARG_PACKAGE); }
static uint32_t open_operators(void) { return warg_open(&fresh, WARG_OPERATOR); }
static uint32_t ask_next(void) {
    struct warg_asked parts;
    return warg_ask(&package, next.at, next.len, text, sizeof text, &used, &parts);
}
static uint32_t ask_begin(void) {
    struct warg_asked parts;
    return warg_ask(&fresh, begin.at, begin.len, text, sizeof text, &used, &parts);
}
static uint32_t ask_nonsense(void) {
    struct warg_asked parts;
    return warg_ask(&package, bytes_of("\x0b"), 1, text, sizeof text, &used, &parts);
}
static uint32_t ask_refused(void) {
    struct warg_asked parts;
    return warg_ask(&package, begin.at, begin.len, text, sizeof text, &used, &parts);
}
static uint32_t append_next(void) {
    return warg_append(&package, next.at, next.len, yes.at, yes.len, &asked, true, text, sizeof text, &used);
}
static uint32_t append_no(void) {
    return warg_append(&package, next.at, next.len, yes.at, yes.len, &asked, false, text, sizeof text, &used);
}
static uint32_t append_other(void) {
    return warg_append(&package, forged.at, forged.len, yes.at, yes.len, &asked, true, text, sizeof text, &used);
}
static uint32_t append_begin(void) {
    return warg_append(&fresh, begin.at, begin.len, begin_yes.at, begin_yes.len, &begin_asked, true, text, sizeof text,
                       &used);
}
static uint32_t append_signed_wrong(void) {
    return warg_append_signed(&package, wrong.at, wrong.len, text, sizeof text, &used);
}
static uint32_t append_signed_begin(void) {
    return warg_append_signed(&package, begin.at, begin.len, text, sizeof text, &used);
}
static uint32_t append_signed_other(void) {
    return warg_append_signed(&fresh, other_begin.at, other_begin.len, text, sizeof text, &used);
}
static uint32_t append_signed_nonsense(void) {
    return warg_append_signed(&package, bytes_of("\x0b"), 1, text, sizeof text, &used);
}
static uint32_t append_signed_third(void) {
    return warg_append_signed(&other, third.at, third.len, text, sizeof text, &used);
}
/* By the question of the next envelope, with its signature or with what is no text of one. */
static uint32_t verify(const char *words) {
    const uint8_t *message = yes.at + asked.key_len, *signature = message + asked.message_len;
    size_t len = words ? strlen(words) : asked.signature_len;
    return warg_verify(yes.at, asked.key_len, message, asked.message_len, words ? bytes_of(words) : signature, len);
}
static uint32_t verify_next(void) { return verify(NULL); }
static uint32_t verify_wrong(void) { return verify("ecdsa-p256:AAAA"); }
static uint32_t verify_nonsense(void) { return verify("ecdsa-p256:A"); }
static uint32_t verify_other(void) {
    return warg_verify(other_alice.public_key.at, other_alice.public_key.len, text, 0, text, 0);
}
static uint32_t head(void) { return warg_head(&package, text, sizeof text, &used); }
static uint32_t length(void) { return warg_length(&package, &used); }
static uint32_t record(void) {
    struct warg_kept kept;
    return warg_record(&package, 1, text, sizeof text, &used, &kept);
}
static uint32_t id(void) { return warg_id(WARG_PACKAGE, next.at, next.len, text, sizeof text, &used); }
static uint32_t operator_id(void) { return warg_id(WARG_OPERATOR, next.at, next.len, text, sizeof text, &used); }
static uint32_t latest(void) { return warg_latest(&package, bytes_of(">=1, <2"), 7, text, sizeof text, &used, &release); }
static uint32_t bad_requirement(void) { return warg_latest(&package, bytes_of(">=x"), 3, text, sizeof text, &used, &release); }
static uint32_t release_of(void) { return warg_release(&package, bytes_of("1.2.0"), 5, text, sizeof text, &used, &release); }
static uint32_t releases(void) { return warg_releases(&package, 1, text, sizeof text, &used, &release); }
static uint32_t namespace_of(void) {
    uint32_t is_imported;
    return warg_namespace(&operators, bytes_of("other"), 5, text, sizeof text, &used, &is_imported);
}
static uint32_t holds(void) { return warg_holds(&package, alice.key_id.at, alice.key_id.len, bytes_of("yank"), 4); }
static uint32_t permissions(void) {
    return warg_permissions(&package, alice.key_id.at, alice.key_id.len, text, sizeof text, &used);
}
static uint32_t operator_permissions(void) {
    return warg_permissions(&operators, alice.key_id.at, alice.key_id.len, text, sizeof text, &used);
}
static uint32_t key(void) { return warg_key(&package, bob.key_id.at, bob.key_id.len, text, sizeof text, &used); }
static uint32_t chain(void) {
    struct warg_link links[8];
    return warg_chain(&package, bob.key_id.at, bob.key_id.len, bytes_of("release"), 7, links, 8, &used);
}
static uint32_t compare(void) {
    struct warg_comparison comparison;
    return warg_compare(&package, &other, &comparison);
}
static uint32_t save(void) { return warg_save(&package, text, sizeof text, &used); }
static uint32_t save_operators(void) { return warg_save(&operators, text, sizeof text, &used); }
static uint32_t resume(void) { return warg_resume(&fresh, WARG_PACKAGE, saved[0], saved_len[0], text, sizeof text, &used); }
static uint32_t resume_counted(void) {
    return warg_resume_counted(&fresh, WARG_PACKAGE, saved[0], saved_len[0], 4, text, sizeof text, &used);
}
static uint32_t resume_operators(void) {
    return warg_resume(&fresh, WARG_OPERATOR, saved[1], saved_len[1], text, sizeof text, &used);
}
static uint32_t resume_nonsense(void) {
    return warg_resume(&fresh, WARG_PACKAGE, bytes_of("{\"head\":1}"), 10, text, sizeof text, &used);
}
/* Of a checkpoint that alice signed. */
#define ROOT bytes_of("sha256:e3b0c44298fc1c149afbf4c8996fb92427ae41e4649b934ca495991b7852b855"), 71
static uint32_t log_id(void) { return warg_log_id(WARG_PACKAGE, bytes_of("example:math"), 12, text, sizeof text, &used); }
static uint32_t operator_log_id(void) { return warg_log_id(WARG_OPERATOR, bytes_of(""), 0, text, sizeof text, &used); }
static uint32_t no_name(void) { return warg_log_id(WARG_PACKAGE, bytes_of("math"), 4, text, sizeof text, &used); }
static uint32_t leaf(void) { return warg_leaf(ROOT, ROOT, text, sizeof text, &used); }
static uint32_t message(void) { return warg_checkpoint_message(8, ROOT, ROOT, 9, text, sizeof text, &used); }
static uint32_t checkpoint(struct warg_log *log, uint64_t length, const struct bytes *key_id, const uint8_t *signature, size_t len) {
    return warg_verify_checkpoint(log, length, ROOT, ROOT, 9, key_id->at, key_id->len, signature, len);
}
static uint32_t verify_checkpoint(void) {
    return checkpoint(&operators, 8, &alice.key_id, checkpoint_signature.at, checkpoint_signature.len);
}
static uint32_t verify_other_checkpoint(void) {
    return checkpoint(&operators, 9, &alice.key_id, checkpoint_signature.at, checkpoint_signature.len);
}
static uint32_t verify_nonsense_of_checkpoint(void) { return checkpoint(&operators, 8, &alice.key_id, bytes_of("ecdsa-p256:A"), 12); }
static uint32_t verify_checkpoint_by_bob(void) {
    return checkpoint(&operators, 8, &bob.key_id, checkpoint_signature.at, checkpoint_signature.len);
}
static uint32_t version(void) { return warg_version(text, sizeof text, &used); }
static uint32_t name_of_status(void) { return warg_status_name(WARG_NONE, text, sizeof text, &used); }
static uint32_t open_no_kind(void) { return warg_open(&fresh, 2); }
static uint32_t no_release_there(void) { return warg_releases(&package, 99, text, sizeof text, &used, &release); }
static uint32_t no_permission(void) { return warg_holds(&package, alice.key_id.at, alice.key_id.len, bytes_of("commit"), 6); }
static uint32_t no_kind_of_log(void) { return warg_log_id(2, bytes_of("example:math"), 12, text, sizeof text, &used); }
static uint32_t name_of_operators(void) { return warg_log_id(WARG_OPERATOR, bytes_of("a:b"), 3, text, sizeof text, &used); }
static uint32_t no_leaf(void) { return warg_leaf(ROOT, bytes_of("sha256:00"), 9, text, sizeof text, &used); }
static uint32_t no_message(void) { return warg_checkpoint_message(8, bytes_of("sha256:00"), 9, ROOT, 9, text, sizeof text, &used); }
static uint32_t no_checkpoint(void) {
    return warg_verify_checkpoint(&operators, 8, ROOT, bytes_of("sha256:00"), 9, 9, bytes_of(""), 0, bytes_of(""), 0);
}
static uint32_t verify_checkpoint_by_package(void) {
    return checkpoint(&package, 8, &alice.key_id, checkpoint_signature.at, checkpoint_signature.len);
}
static uint32_t no_hash(void) {
    const uint8_t *hash = bytes_of("sha256:00"), *proof = bytes_of("AAAA");
    return warg_verify_inclusion(hash, 9, hash, 9, 0, 1, hash, 9, proof, 4);
}

/* A call, and its status with memory: on a log that has its records, and on a resumed one. */
struct call {
    const char *name;
    uint32_t (*make)(void);
    uint32_t status[2];
};

/* Those that only look. */
static const struct call looking[] = {
    {"ask", ask_next, {WARG_OK, WARG_OK}},
    {"ask, of a first record", ask_begin, {WARG_OK, WARG_OK}},
    {"ask, of no envelope", ask_nonsense, {WARG_NO_ENVELOPE, WARG_NO_ENVELOPE}},
    {"ask, of a refused record", ask_refused, {WARG_REFUSED, WARG_REFUSED}},
    {"append, of a wrong signature", append_no, {WARG_REFUSED, WARG_REFUSED}},
    {"append, by another answer", append_other, {WARG_REFUSED, WARG_REFUSED}},
    {"append signed, of a wrong signature", append_signed_wrong, {WARG_REFUSED, WARG_REFUSED}},
    {"append signed, of a refused record", append_signed_begin, {WARG_REFUSED, WARG_REFUSED}},
    {"append signed, of another algorithm", append_signed_other, {WARG_UNKNOWN_ALGORITHM, WARG_UNKNOWN_ALGORITHM}},
    {"append signed, of no envelope", append_signed_nonsense, {WARG_NO_ENVELOPE, WARG_NO_ENVELOPE}},
    {"verify", verify_next, {WARG_OK, WARG_OK}},
    {"verify, of a wrong signature", verify_wrong, {WARG_REFUSED, WARG_REFUSED}},
    {"verify, of no signature", verify_nonsense, {WARG_BAD_ARGUMENT, WARG_BAD_ARGUMENT}},
    {"verify, of another algorithm", verify_other, {WARG_UNKNOWN_ALGORITHM, WARG_UNKNOWN_ALGORITHM}},
    {"head", head, {WARG_OK, WARG_OK}},
    {"record", record, {WARG_OK, WARG_BAD_ARGUMENT}},
    {"id", id, {WARG_OK, WARG_OK}},
    {"id, of an operator's", operator_id, {WARG_OK, WARG_OK}},
    {"latest", latest, {WARG_OK, WARG_OK}},
    {"latest, of no requirement", bad_requirement, {WARG_BAD_ARGUMENT, WARG_BAD_ARGUMENT}},
    {"release", release_of, {WARG_OK, WARG_OK}},
    {"releases", releases, {WARG_OK, WARG_OK}},
    {"namespace", namespace_of, {WARG_OK, WARG_OK}},
    {"holds", holds, {WARG_OK, WARG_OK}},
    {"permissions", permissions, {WARG_OK, WARG_OK}},
    {"permissions, of operators", operator_permissions, {WARG_OK, WARG_OK}},
    {"key", key, {WARG_OK, WARG_OK}},
    {"chain", chain, {WARG_OK, WARG_BAD_ARGUMENT}},
    {"save", save, {WARG_OK, WARG_OK}},
    {"save, of operators", save_operators, {WARG_OK, WARG_OK}},
    {"resume, of no state", resume_nonsense, {WARG_BAD_ARGUMENT, WARG_BAD_ARGUMENT}},
    {"log id", log_id, {WARG_OK, WARG_OK}},
    {"log id, of operators", operator_log_id, {WARG_OK, WARG_OK}},
    {"log id, of no name", no_name, {WARG_BAD_ARGUMENT, WARG_BAD_ARGUMENT}},
    {"leaf", leaf, {WARG_OK, WARG_OK}},
    {"checkpoint message", message, {WARG_OK, WARG_OK}},
    {"verify checkpoint", verify_checkpoint, {WARG_OK, WARG_OK}},
    {"verify checkpoint, of another", verify_other_checkpoint, {WARG_REFUSED, WARG_REFUSED}},
    {"verify checkpoint, by no text", verify_nonsense_of_checkpoint, {WARG_BAD_ARGUMENT, WARG_BAD_ARGUMENT}},
    {"verify checkpoint, by a key that may not sign", verify_checkpoint_by_bob, {WARG_REFUSED, WARG_REFUSED}},
};

/* Those that only look, and ask for no memory. */
static const struct call taking_none[] = {
    {"length", length, {WARG_OK, WARG_BAD_ARGUMENT}},
    {"compare", compare, {WARG_OK, WARG_BAD_ARGUMENT}},
    {"version", version, {WARG_OK, WARG_OK}},
    {"status name", name_of_status, {WARG_OK, WARG_OK}},
    {"open, of no kind", open_no_kind, {WARG_BAD_ARGUMENT, WARG_BAD_ARGUMENT}},
    {"releases, where there is none", no_release_there, {WARG_NONE, WARG_NONE}},
    {"holds, of no permission", no_permission, {WARG_BAD_ARGUMENT, WARG_BAD_ARGUMENT}},
    {"verify inclusion, of no hash", no_hash, {WARG_BAD_ARGUMENT, WARG_BAD_ARGUMENT}},
    {"log id, of no kind", no_kind_of_log, {WARG_BAD_ARGUMENT, WARG_BAD_ARGUMENT}},
    {"log id, of operators with a name", name_of_operators, {WARG_BAD_ARGUMENT, WARG_BAD_ARGUMENT}},
    {"leaf, of no hash", no_leaf, {WARG_BAD_ARGUMENT, WARG_BAD_ARGUMENT}},
    {"checkpoint message, of no hash", no_message, {WARG_BAD_ARGUMENT, WARG_BAD_ARGUMENT}},
    {"verify checkpoint, of no hash", no_checkpoint, {WARG_BAD_ARGUMENT, WARG_BAD_ARGUMENT}},
    {"verify checkpoint, by the log of a package", verify_checkpoint_by_package, {WARG_BAD_ARGUMENT, WARG_BAD_ARGUMENT}},
};

/* Those that change a log. */
static const struct call changing[] = {
    {"append, of a first record", append_begin, {WARG_OK, WARG_OK}},
    {"resume", resume, {WARG_OK, WARG_OK}},
    {"resume, of operators", resume_operators, {WARG_OK, WARG_OK}},
    {"resume, counted", resume_counted, {WARG_OK, WARG_OK}},
    {"open", open_again, {WARG_OK, WARG_OK}},
    {"open, of operators", open_operators, {WARG_OK, WARG_OK}},
    {"append", append_next, {WARG_OK, WARG_OK}},
    {"append signed", append_signed_third, {WARG_OK, WARG_OK}},
};

/* What a log says of itself: its state as a text, its last record's id, how many records it has, and these. */
static void add_log(struct bytes *all, struct warg_log *log) {
    static uint8_t room[1 << 15];
    size_t len = 0, count = 0;
    struct warg_kept kept = {0};
    CHECK(warg_save(log, room, sizeof room, &len) == WARG_OK);
    bytes_add(all, room, len);
    uint32_t status = warg_head(log, room, sizeof room, &len);
    CHECK(status == WARG_OK || status == WARG_NONE);
    bytes_add(all, room, len);
    status = warg_length(log, &count);
    /* A resumed log has no records. */
    CHECK(status == WARG_OK || status == WARG_BAD_ARGUMENT);
    bytes_add(all, &status, sizeof status);
    if (status != WARG_OK)
        return;
    bytes_add(all, &count, sizeof count);
    for (size_t place = 0; place < count; place++) {
        CHECK(warg_record(log, place, room, sizeof room, &len, &kept) == WARG_OK);
        CHECK(kept.envelope_len + kept.id_len == len);
        bytes_add(all, room, len);
    }
}

/* What all logs say of themselves. */
static void add_logs(struct bytes *all) {
    struct warg_log *logs[] = {&package, &operators, &other, &fresh};
    all->len = 0;
    for (size_t i = 0; i < sizeof logs / sizeof *logs; i++)
        add_log(all, logs[i]);
}

/* Whether a call takes a record. */
static bool is_append(const struct call *call) {
    return call->make == append_begin || call->make == append_next || call->make == append_signed_third;
}

/* Refuses each request of a call in turn, and says how many there are. */
static long refuse_each(const struct call *call, bool changes, bool are_resumed) {
    struct bytes before = {0}, after = {0};
    uint32_t wanted = call->status[are_resumed];
    add_logs(&before);
    for (long place = 0;; place++) {
        refuse_request(place);
        uint32_t status = call->make();
        bool is_last = !was_refused();
        /* A call may do without what it asked for, or say no more than the status. */
        CHECK(status == wanted || (status == WARG_OUT_OF_MEMORY && !is_last));
        add_logs(&after);
        bool are_same = before.len == after.len && !memcmp(before.at, after.at, after.len);
        CHECK(are_same || (changes && status == WARG_OK));
        /* A record is appended once, also where there was no room to keep its key, or to look one up the short way. */
        bool is_done = status == WARG_OK && is_append(call);
        if (is_last || is_done) {
            bytes_free(&before);
            bytes_free(&after);
            return place;
        }
        if (status == WARG_OK)
            add_logs(&before);
    }
}

static long refuse_all(const struct call *calls, size_t count, bool changes, bool are_resumed) {
    long all = 0;
    for (size_t i = 0; i < count; i++) {
        long requests = refuse_each(&calls[i], changes, are_resumed);
        printf("%4ld requests refused: %s\n", requests, calls[i].name);
        all += requests;
    }
    return all;
}

/* Puts the log that goes on from its saved state in its place. */
static void resume_log(struct warg_log *log, uint32_t kind) {
    static uint8_t state[1 << 15];
    size_t len = 0;
    CHECK(warg_save(log, state, sizeof state, &len) == WARG_OK);
    CHECK(warg_resume(log, kind, state, len, text, sizeof text, &used) == WARG_OK);
    CHECK(warg_length(log, &used) == WARG_BAD_ARGUMENT);
}

static void prepare(bool are_resumed) {
    struct bytes none = {0};
    package = package_log(4, &alice, &bob);
    other = package_log(2, &alice, &bob);
    operators = operator_log(&alice);
    CHECK(warg_open(&fresh, WARG_PACKAGE) == WARG_OK);
    if (are_resumed) {
        resume_log(&package, WARG_PACKAGE);
        resume_log(&other, WARG_PACKAGE);
        resume_log(&operators, WARG_OPERATOR);
        resume_log(&fresh, WARG_PACKAGE);
    }
    next_envelope(&next, &package, 4, &alice, &bob);
    next_envelope(&forged, &package, 5, &alice, &bob);
    wrong.len = 0;
    bytes_add(&wrong, next.at, next.len);
    /* A digit near the end of the signature, which is the envelope's last field. */
    uint8_t *digit = wrong.at + wrong.len - 8;
    *digit = *digit == 'A' ? 'B' : 'A';
    next_envelope(&third, &other, 2, &alice, &bob);
    publish(&begin, 0, &none, &alice, &bob);
    publish(&other_begin, 0, &none, &other_alice, &bob);
    CHECK(ask(&package, &next, &yes, &asked) == WARG_OK);
    CHECK(ask(&fresh, &begin, &begin_yes, &begin_asked) == WARG_OK);
    struct bytes content = {0};
    CHECK(message() == WARG_OK);
    bytes_add(&content, text, used);
    p256_add_signature(&checkpoint_signature, alice.key, &content);
    bytes_free(&content);
    CHECK(warg_save(&package, saved[0], sizeof saved[0], &saved_len[0]) == WARG_OK);
    CHECK(warg_save(&operators, saved[1], sizeof saved[1], &saved_len[1]) == WARG_OK);
}

static void finish(void) {
    struct warg_log *logs[] = {&package, &operators, &other, &fresh};
    struct bytes *all[] = {&next, &forged, &wrong, &third, &begin, &other_begin, &yes, &begin_yes, &checkpoint_signature};
    for (size_t i = 0; i < sizeof logs / sizeof *logs; i++) {
        /* Closing asks for no memory. */
        refuse_request(0);
        warg_close(logs[i]);
        CHECK(!was_refused());
    }
    for (size_t i = 0; i < sizeof all / sizeof *all; i++)
        bytes_free(all[i]);
}

int main(void) {
    long all = 0;
    alice = p256_signer();
    bob = p256_signer();
    other_alice = word_signer();
    for (int are_resumed = 0; are_resumed < 2; are_resumed++) {
        puts(are_resumed ? "resumed logs:" : "logs that have their records:");
        prepare(are_resumed);
        CHECK(!refuse_all(taking_none, sizeof taking_none / sizeof *taking_none, false, are_resumed));
        all += refuse_all(looking, sizeof looking / sizeof *looking, false, are_resumed);
        all += refuse_all(changing, sizeof changing / sizeof *changing, true, are_resumed);
        finish();
    }
    p256_signer_free(&alice);
    p256_signer_free(&bob);
    word_signer_free(&other_alice);
    printf("%ld requests refused in all\n", all);
    return 0;
}
