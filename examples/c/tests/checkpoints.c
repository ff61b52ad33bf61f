/* Ids of logs by their names, leaves of a registry's log, and checkpoints that are signed by keys which an operator log lets sign: the bytes of
 * docs/FORMATS.md, texts of no form, and buffers that are too small. Libcrypto hashes and signs. */
#include "../p256.h"
#include "check.h"
#include "logs.h"

#define TEXT(words) (const uint8_t *)(words), strlen(words)
#define OF(bytes) (bytes).at, (bytes).len

static uint8_t room[512];
static size_t used;

/* The roots and the ids of proofs.c. */
#define ROOT "sha256:0915e5e33416c991c2ac5d07c3499bbf68952d248c16afdc509217beede803e8"
#define UPPER_ROOT "sha256:0915E5E33416C991C2AC5D07C3499BBF68952D248C16AFDC509217BEEDE803E8"
#define MAP_ROOT "sha256:6b3b29793c461452ef689fdfac26511b3862f7b70a4f576163ca60308bad21e6"
#define LOG "sha256:d912d1199b4042f4dfe339e1070db6de911b4fa88de09b22f6fd5f803449e782"
#define RECORD "sha256:28fdd77254977237364a167ba289ff718fbe76799cfd983dbf447346fa62a033"

static const char *const no_hashes[] = {
    "",
    "sha256",
    "sha256:",
    "sha256:00",
    "sha512:0915e5e33416c991c2ac5d07c3499bbf68952d248c16afdc509217beede803e8",
    "sha256:g915e5e33416c991c2ac5d07c3499bbf68952d248c16afdc509217beede803e8",
    "sha256:0915e5e33416c991c2ac5d07c3499bbf68952d248c16afdc509217beede803e8 ",
    "0915e5e33416c991c2ac5d07c3499bbf68952d248c16afdc509217beede803e8",
    "\xff",
};
enum { NO_HASHES = sizeof no_hashes / sizeof *no_hashes };

/* A number as it is encoded, by LEB128, and a text with its length before it. */
static void add_number(struct bytes *to, uint64_t value) {
    for (; value >= 128; value /= 128)
        bytes_add(to, &(uint8_t){(uint8_t)(value % 128 + 128)}, 1);
    bytes_add(to, &(uint8_t){(uint8_t)value}, 1);
}
static void add_text(struct bytes *to, const char *words) {
    add_number(to, strlen(words));
    bytes_add_text(to, words);
}

/* The call wrote these bytes, and nothing behind them. */
static bool wrote(uint32_t status, const void *at, size_t len) {
    bool is_whole = status == WARG_OK && used == len && !memcmp(room, at, len);
    for (size_t i = used; is_whole && i < sizeof room; i++)
        is_whole = room[i] == 7;
    memset(room, 7, sizeof room);
    return is_whole;
}
/* The call wrote nothing. */
static bool wrote_nothing(void) {
    for (size_t i = 0; i < sizeof room; i++)
        if (room[i] != 7)
            return false;
    return true;
}

static uint32_t id(uint32_t kind, const char *name, size_t len) {
    return warg_log_id(kind, (const uint8_t *)name, len, room, sizeof room, &used);
}

/* The call was refused by an error of this name. */
static bool was_told(uint32_t status, const char *name) {
    bool is_told = status == WARG_BAD_ARGUMENT && BEGINS(room, used, name) && used > strlen(name);
    memset(room, 7, sizeof room);
    return is_told;
}

static void test_ids(void) {
    static const char *const names[] = {"example:math", "a:b", "example-two:math-lib2"};
    for (size_t i = 0; i < sizeof names / sizeof *names; i++) {
        struct bytes named = {0}, wanted = {0};
        bytes_add_text(&named, "WARG-PACKAGE-LOG-ID-V0:WARG-PACKAGE-ID-V0");
        add_text(&named, names[i]);
        add_sha256_text(&wanted, named.at, named.len);
        CHECK(wrote(id(WARG_PACKAGE, names[i], strlen(names[i])), wanted.at, wanted.len));
        bytes_free(&named);
        bytes_free(&wanted);
    }
    /* As docs/TRUST.md has it, and as sha256sum says it. */
    CHECK(wrote(id(WARG_PACKAGE, "example:math", 12), "sha256:af6410747c0a7692c8dc4cf6f83cbb8da9041875f1ad9a5a2fca0eef51379ec1", 71));
    CHECK(wrote(id(WARG_OPERATOR, "", 0), "sha256:0db9178aabc877b42f03a038bf453ee53f08e3c8c55fab916043428078596bfb", 71));
}

static void test_names_of_none(void) {
    static const char *const names[] = {"",     ":",     "a:",   ":b",    "math", "Example:math", "example:Math", "a:b:c", "a::b", "a-:b",
                                        "-a:b", "a--b:c", "1a:b", "a:1b", "a_b:c", "a:b ",         " a:b",         "a:\xff", "\xff:b"};
    for (size_t i = 0; i < sizeof names / sizeof *names; i++)
        CHECK(was_told(id(WARG_PACKAGE, names[i], strlen(names[i])), "BadName: "));
    CHECK(was_told(id(WARG_PACKAGE, "a:b\0", 4), "BadName: "));
    CHECK(was_told(id(WARG_OPERATOR, "a:b", 3), "BadName: "));
    CHECK(was_told(id(WARG_OPERATOR, "\0", 1), "BadName: "));
    CHECK(was_told(id(WARG_OPERATOR, "\xff", 1), "BadName: "));
    CHECK(was_told(id(2, "example:math", 12), "NoKind: "));
    CHECK(was_told(id(2, "", 0), "NoKind: "));
    CHECK(was_told(id(UINT32_MAX, "\xff", 1), "NoKind: "));
    /* The text of an error has to find room. */
    CHECK(warg_log_id(WARG_PACKAGE, TEXT("a"), room, 8, &used) == WARG_BAD_ARGUMENT && !used && wrote_nothing());
    CHECK(warg_log_id(7, TEXT("a:b"), room, 7, &used) == WARG_BAD_ARGUMENT && !used && wrote_nothing());
}

static void test_leaves(void) {
    struct bytes wanted = {0};
    bytes_add_text(&wanted, "WARG-LOG-LEAF-V0");
    add_text(&wanted, LOG);
    add_text(&wanted, RECORD);
    CHECK(wrote(warg_leaf(TEXT(LOG), TEXT(RECORD), room, sizeof room, &used), wanted.at, wanted.len));
    for (size_t i = 0; i < NO_HASHES; i++) {
        CHECK(warg_leaf(TEXT(no_hashes[i]), TEXT(RECORD), room, sizeof room, &used) == WARG_BAD_ARGUMENT && !used);
        CHECK(warg_leaf(TEXT(LOG), TEXT(no_hashes[i]), room, sizeof room, &used) == WARG_BAD_ARGUMENT && !used);
    }
    CHECK(wrote_nothing());
    bytes_free(&wanted);
}

/* A checkpoint. */
struct checkpoint {
    uint64_t log_length;
    const char *log_root, *map_root;
    uint64_t timestamp;
};

static uint32_t message(const struct checkpoint *it, size_t len) {
    return warg_checkpoint_message(it->log_length, TEXT(it->log_root), TEXT(it->map_root), it->timestamp, room, len, &used);
}

/* What is signed of it, by definition. */
static void add_message(struct bytes *to, const struct checkpoint *it) {
    bytes_add_text(to, "WARG-CHECKPOINT-SIGNATURE-V0:WARG-TIMESTAMPED-CHECKPOINT-V0");
    add_number(to, it->log_length);
    add_text(to, it->log_root);
    add_text(to, it->map_root);
    add_number(to, it->timestamp);
}

static void test_messages(void) {
    static const uint64_t numbers[] = {0, 1, 127, 128, UINT32_MAX, UINT64_C(1) << 32, UINT64_C(1) << 63, UINT64_MAX};
    for (size_t i = 0; i < 64; i++) {
        struct checkpoint it = {numbers[i / 8], ROOT, MAP_ROOT, numbers[i % 8]};
        struct bytes wanted = {0};
        add_message(&wanted, &it);
        CHECK(wrote(message(&it, sizeof room), wanted.at, wanted.len));
        it.log_root = UPPER_ROOT;
        CHECK(wrote(message(&it, sizeof room), wanted.at, wanted.len));
        bytes_free(&wanted);
    }
    for (size_t i = 0; i < NO_HASHES; i++) {
        CHECK(message(&(struct checkpoint){8, no_hashes[i], ROOT, 9}, sizeof room) == WARG_BAD_ARGUMENT && !used);
        CHECK(message(&(struct checkpoint){8, ROOT, no_hashes[i], 9}, sizeof room) == WARG_BAD_ARGUMENT && !used);
    }
    CHECK(wrote_nothing());
}

/* Buffers that are too small say how much is needed, and a byte less is too small again. */
static void test_small_buffers(void) {
    const struct checkpoint it = {8, ROOT, MAP_ROOT, 1700000000};
    const size_t lengths[] = {0, 1, 70};
    for (size_t i = 0; i < 3; i++) {
        CHECK(warg_log_id(WARG_PACKAGE, TEXT("a:b"), room, lengths[i], &used) == WARG_TOO_SMALL && used == 71);
        CHECK(warg_log_id(WARG_OPERATOR, TEXT(""), room, lengths[i], &used) == WARG_TOO_SMALL && used == 71);
        CHECK(warg_leaf(TEXT(LOG), TEXT(RECORD), room, 2 * lengths[i] + 19 * (i == 2), &used) == WARG_TOO_SMALL && used == 160);
        CHECK(message(&it, 2 * lengths[i] + 68 * (i == 2)) == WARG_TOO_SMALL && used == 209);
    }
    CHECK(wrote_nothing());
    CHECK(warg_log_id(WARG_OPERATOR, TEXT(""), room, 71, &used) == WARG_OK && used == 71 && room[71] == 7);
    CHECK(warg_leaf(TEXT(LOG), TEXT(RECORD), room, 160, &used) == WARG_OK && used == 160 && room[160] == 7);
    CHECK(message(&it, 209) == WARG_OK && used == 209 && room[209] == 7);
}

/* The keys of an operator log: those that may sign, which are the first, one that was given `commit` beside another permission and one that was
 * given it alone; and those that may not, which were given another permission, were given `commit` and had it taken, or stand in no record. */
enum { FIRST, SECOND, THIRD, DEFINES, REVOKED, UNKNOWN, SIGNERS };
static struct signer signers[SIGNERS], word;

/* Appends a record of these entries. */
static void add(struct warg_log *log, const struct signer *signer, struct bytes *entries) {
    struct bytes head = {0}, contents = {0}, envelope = {0}, said = {0};
    CHECK(head_of(log, &head) == WARG_OK);
    add_record(&contents, &head, 1700000000, entries);
    add_operator_envelope(&envelope, &contents, signer);
    CHECK(append(log, &envelope, &said) == WARG_OK);
    bytes_free(&head);
    bytes_free(&contents);
    bytes_free(&envelope);
    bytes_free(&said);
    bytes_free(entries);
}

static struct warg_log signing_log(void) {
    struct warg_log log = {0};
    struct bytes entries = {0};
    CHECK(warg_open(&log, WARG_OPERATOR) == WARG_OK);
    add_init(&entries, &signers[FIRST].public_key);
    add_grant(&entries, &signers[SECOND].public_key, "\2\1");
    add_grant(&entries, &signers[THIRD].public_key, "\1");
    add_grant(&entries, &signers[DEFINES].public_key, "\2\3");
    add_grant(&entries, &signers[REVOKED].public_key, "\1\3");
    add_grant(&entries, &word.public_key, "\1");
    add(&log, &signers[FIRST], &entries);
    add_revoke(&entries, &signers[REVOKED].key_id, "\1");
    add(&log, &signers[THIRD], &entries);
    return log;
}

static void sign(struct bytes *signature, const struct signer *signer, const struct checkpoint *it) {
    struct bytes content = {0};
    add_message(&content, it);
    signature->len = 0;
    signer->sign(signature, signer->key, &content);
    bytes_free(&content);
}

static uint32_t verify(struct warg_log *log, const struct checkpoint *it, const struct signer *signer, const uint8_t *at, size_t len) {
    return warg_verify_checkpoint(log, it->log_length, TEXT(it->log_root), TEXT(it->map_root), it->timestamp, OF(signer->key_id), at, len);
}

/* A time that 32 bits do not hold. */
static const struct checkpoint it = {8, ROOT, MAP_ROOT, (UINT64_C(1) << 32) + 5};
/* Those that differ from it in a field, or have two exchanged. */
static const struct checkpoint others[] = {
    {9, ROOT, MAP_ROOT, (UINT64_C(1) << 32) + 5}, {(UINT64_C(1) << 32) + 8, ROOT, MAP_ROOT, (UINT64_C(1) << 32) + 5},
    {8, LOG, MAP_ROOT, (UINT64_C(1) << 32) + 5},  {8, ROOT, LOG, (UINT64_C(1) << 32) + 5},
    {8, ROOT, MAP_ROOT, 5},                       {8, ROOT, MAP_ROOT, (UINT64_C(1) << 32) + 6},
    {8, MAP_ROOT, ROOT, (UINT64_C(1) << 32) + 5}, {(UINT64_C(1) << 32) + 5, ROOT, MAP_ROOT, 8},
};
/* What can't be read as a signature. */
static const char *const unreadable[] = {"", "ecdsa-p256", ":AAAA", "ecdsa-p256:!", "ecdsa-p256:AAA", "ecdsa-p256:AAAA\n", "\xff"};

static void test_keys_that_may_sign(struct warg_log *log) {
    struct bytes signature = {0};
    for (size_t i = FIRST; i <= THIRD; i++) {
        sign(&signature, &signers[i], &it);
        CHECK(verify(log, &it, &signers[i], OF(signature)) == WARG_OK);
        CHECK(verify(log, &it, &signers[(i + 1) % 3], OF(signature)) == WARG_REFUSED);
        for (size_t j = 0; j < sizeof others / sizeof *others; j++)
            CHECK(verify(log, &others[j], &signers[i], OF(signature)) == WARG_REFUSED);
        /* Another digit near the end. */
        uint8_t *digit = signature.at + signature.len - 8;
        *digit = *digit == 'A' ? 'B' : 'A';
        CHECK(verify(log, &it, &signers[i], OF(signature)) == WARG_REFUSED);
        for (size_t j = 0; j < sizeof others / sizeof *others; j++) {
            sign(&signature, &signers[i], &others[j]);
            CHECK(verify(log, &it, &signers[i], OF(signature)) == WARG_REFUSED);
            CHECK(verify(log, &others[j], &signers[i], OF(signature)) == WARG_OK);
        }
        for (size_t j = 0; j < sizeof unreadable / sizeof *unreadable; j++)
            CHECK(verify(log, &it, &signers[i], TEXT(unreadable[j])) == WARG_BAD_ARGUMENT);
        CHECK(verify(log, &it, &signers[i], TEXT("ecdsa-p384:AAAA")) == WARG_REFUSED);
    }
    bytes_free(&signature);
}

/* Then the signature is not looked at, nor its text read; nor is it under a key of another algorithm. */
static void test_other_keys(struct warg_log *log) {
    struct bytes signature = {0};
    for (size_t i = DEFINES; i < SIGNERS; i++) {
        sign(&signature, &signers[i], &it);
        CHECK(verify(log, &it, &signers[i], OF(signature)) == WARG_REFUSED);
        for (size_t j = 0; j < sizeof unreadable / sizeof *unreadable; j++)
            CHECK(verify(log, &it, &signers[i], TEXT(unreadable[j])) == WARG_REFUSED);
    }
    sign(&signature, &signers[FIRST], &it);
    CHECK(warg_verify_checkpoint(log, it.log_length, TEXT(ROOT), TEXT(MAP_ROOT), it.timestamp, TEXT(""), OF(signature)) == WARG_REFUSED);
    CHECK(warg_verify_checkpoint(log, it.log_length, TEXT(ROOT), TEXT(MAP_ROOT), it.timestamp, TEXT("\xff"), OF(signature)) ==
          WARG_BAD_ARGUMENT);
    CHECK(verify(log, &it, &word, TEXT("word:AAAA")) == WARG_UNKNOWN_ALGORITHM);
    CHECK(verify(log, &it, &word, OF(signature)) == WARG_UNKNOWN_ALGORITHM);
    for (size_t j = 0; j < sizeof unreadable / sizeof *unreadable; j++)
        CHECK(verify(log, &it, &word, TEXT(unreadable[j])) == WARG_UNKNOWN_ALGORITHM);
    for (size_t i = 0; i < NO_HASHES; i++) {
        const struct checkpoint wrong[] = {{8, no_hashes[i], MAP_ROOT, 5}, {8, ROOT, no_hashes[i], 5}};
        for (size_t j = 0; j < 2; j++) {
            CHECK(verify(log, &wrong[j], &signers[FIRST], OF(signature)) == WARG_BAD_ARGUMENT);
            CHECK(verify(log, &wrong[j], &signers[UNKNOWN], OF(signature)) == WARG_BAD_ARGUMENT);
            CHECK(verify(log, &wrong[j], &word, OF(signature)) == WARG_BAD_ARGUMENT);
        }
    }
    bytes_free(&signature);
}

/* The log of a package, and one that is closed. */
static void test_other_logs(struct warg_log *closed) {
    struct bytes signature = {0};
    struct warg_log package = package_log(1, &signers[FIRST], &signers[SECOND]);
    sign(&signature, &signers[FIRST], &it);
    CHECK(verify(&package, &it, &signers[FIRST], OF(signature)) == WARG_BAD_ARGUMENT);
    CHECK(verify(&package, &it, &signers[UNKNOWN], OF(signature)) == WARG_BAD_ARGUMENT);
    warg_close(&package);
    CHECK(verify(&package, &it, &signers[FIRST], OF(signature)) == WARG_NOT_OPEN);
    warg_close(closed);
    CHECK(verify(closed, &it, &signers[FIRST], OF(signature)) == WARG_NOT_OPEN);
    CHECK(verify(closed, &(struct checkpoint){8, "", "", 5}, &signers[FIRST], OF(signature)) == WARG_NOT_OPEN);
    CHECK(warg_open(closed, WARG_OPERATOR) == WARG_OK);
    CHECK(verify(closed, &it, &signers[FIRST], OF(signature)) == WARG_REFUSED);
    bytes_free(&signature);
}

/* What a log says of itself stays. */
static void look(struct warg_log *log) {
    static uint8_t before[1 << 14], after[1 << 14];
    size_t len = 0;
    CHECK(warg_save(log, before, sizeof before, &len) == WARG_OK);
    test_keys_that_may_sign(log);
    test_other_keys(log);
    CHECK(warg_save(log, after, sizeof after, &used) == WARG_OK && used == len && !memcmp(before, after, len));
}

static void test_resumed(struct warg_log *log) {
    static uint8_t saved[1 << 14];
    struct warg_log resumed = {0};
    size_t len = 0;
    CHECK(warg_save(log, saved, sizeof saved, &len) == WARG_OK);
    CHECK(warg_resume(&resumed, WARG_OPERATOR, saved, len, room, sizeof room, &used) == WARG_OK);
    look(&resumed);
    warg_close(&resumed);
}

int main(void) {
    memset(room, 7, sizeof room);
    test_ids();
    test_names_of_none();
    test_leaves();
    test_messages();
    test_small_buffers();
    for (size_t i = 0; i < SIGNERS; i++)
        signers[i] = p256_signer();
    word = word_signer();
    struct warg_log log = signing_log();
    look(&log);
    test_resumed(&log);
    test_other_logs(&log);
    warg_close(&log);
    for (size_t i = 0; i < SIGNERS; i++)
        p256_signer_free(&signers[i]);
    word_signer_free(&word);
    puts("checkpoints are signed by whom the log lets sign");
    return 0;
}
