/* The trees of a registry: their roots, each proof as the verifiers take it, what is answered past the end, trees that are made of saved leaves,
 * and each request for memory refused: both trees then stay as they were. The leaves are 8 records of three logs; the roots of the log are those of tests/proofs.c. */
#include "check.h"
#include "refusing.h"

#include <warg.h>

#define TEXT(words) (const uint8_t *)(words), strlen(words)
#define ID_LEN 71

static const char *const LOGS[] = {
    "sha256:f24e3c07541a1385301129bde0a481e00c71972691b5e5788e97a16cf187d79b",
    "sha256:87fab3984f3589b084e27c67eac41bcb8aae0014d145cde22d561308e7117278",
    "sha256:d912d1199b4042f4dfe339e1070db6de911b4fa88de09b22f6fd5f803449e782",
};
/* The digests of the texts `record 0` to `record 7`. */
static const char *const RECORDS[] = {
    "sha256:e00d4616051cce59f50090fafabb0d9b5172e50b72037a7a85c603b117257648",
    "sha256:3dba37bb0871edefb95b6655128dbe1922522f17be0cd1089ef7dd45c9badcd1",
    "sha256:55f3858e9bf30865a06984a61ea4e7c0f078549cd1106a11281ab39ff8cd7801",
    "sha256:7322e1c393bf2dffd7c20450a6b421b8681388696b5faee4e5d21cf2d358eb58",
    "sha256:a2b360096f137fc59d82b5ac580e611ca8cf38a114e63c07ed68e3e16c88f79e",
    "sha256:28fdd77254977237364a167ba289ff718fbe76799cfd983dbf447346fa62a033",
    "sha256:ff265ddacaf872945c31beb9ab4820014bfe1f9990967ee612d9e9578d843126",
    "sha256:18c49c3d2bbfb66335adf138654aaaf638f695f1e8824850eca26819675e844e",
};
#define NO_LOG "sha256:2e79febf95078020404950e0cbc4ec4859db123972f238d373129d89b1bb50bc"
#define ROOT_0 "sha256:e3b0c44298fc1c149afbf4c8996fb92427ae41e4649b934ca495991b7852b855"
#define ROOT_6 "sha256:1ea551254584ab55c648eee900f31a3fb7bb2d5474d3ea0fa23caa2905b6e9c5"
#define ROOT_8 "sha256:0915e5e33416c991c2ac5d07c3499bbf68952d248c16afdc509217beede803e8"
/* The root of the map of nothing. */
#define NO_HEADS "sha256:dfbe207a8b9bb8228d1b300ba7f792cb99b47a5de57a206926b4632d0f1195fe"

/* The texts of both roots, and those of a proof and of the head's id before it. */
struct told {
    uint8_t text[2 * ID_LEN];
    size_t used;
    struct warg_roots roots;
};
struct proof {
    uint8_t text[12000];
    size_t used;
    struct warg_log_head head;
};

static uint32_t push(struct warg_registry *registry, unsigned at) {
    uint64_t place = UINT64_MAX;
    uint32_t status = warg_registry_push(registry, TEXT(LOGS[at % 3]), TEXT(RECORDS[at]), &place);
    CHECK(place == (status == WARG_OK ? at : UINT64_MAX));
    return status;
}

static void open_with(struct warg_registry *registry, unsigned count) {
    CHECK(warg_registry_open(registry) == WARG_OK);
    for (unsigned at = 0; at < count; at++)
        CHECK(push(registry, at) == WARG_OK);
}

static uint64_t length_of(struct warg_registry *registry) {
    uint64_t length = UINT64_MAX;
    CHECK(warg_registry_length(registry, &length) == WARG_OK);
    return length;
}

static struct told roots_of(struct warg_registry *registry) {
    struct told told = {{0}, 0, {0, 0}};
    CHECK(warg_registry_roots(registry, told.text, sizeof told.text, &told.used, &told.roots) == WARG_OK);
    CHECK(told.used == sizeof told.text && told.roots.log_root_len == ID_LEN && told.roots.map_root_len == ID_LEN);
    return told;
}

static bool is_root(const uint8_t *text, const char *root) { return memcmp(text, root, ID_LEN) == 0; }

/* The record, if there is one, is the head of the log under the map's root, as the registry says and proves. */
static void check_head(struct warg_registry *registry, const char *log, const char *record) {
    struct told told = roots_of(registry);
    struct proof shown = {{0}, 0, {1, 1}};
    CHECK(warg_registry_head(registry, TEXT(log), shown.text, sizeof shown.text, &shown.used, &shown.head) == WARG_OK);
    CHECK(shown.head.record_id_len == (record ? ID_LEN : 0));
    CHECK(shown.head.record_id_len + shown.head.proof_len == shown.used);
    const uint8_t *proof = shown.text + shown.head.record_id_len;
    const uint8_t *map_root = told.text + ID_LEN;
    uint32_t absent = warg_verify_absence(TEXT(log), map_root, ID_LEN, proof, shown.head.proof_len);
    CHECK(absent == (record ? WARG_REFUSED : WARG_OK));
    for (unsigned at = 0; at < 8; at++) {
        bool is_head = record && strcmp(record, RECORDS[at]) == 0;
        CHECK(!is_head || is_root(shown.text, record));
        uint32_t status =
            warg_verify_presence(TEXT(log), TEXT(RECORDS[at]), map_root, ID_LEN, proof, shown.head.proof_len);
        CHECK(status == (is_head ? WARG_OK : WARG_REFUSED));
    }
}

static void check_log_proofs(struct warg_registry *registry) {
    struct told told = roots_of(registry);
    uint64_t length = length_of(registry);
    struct proof shown;
    for (uint64_t place = 0; place < length; place++) {
        CHECK(warg_registry_inclusion(registry, place, shown.text, sizeof shown.text, &shown.used) == WARG_OK);
        for (uint64_t other = 0; other < length; other++) {
            uint32_t status = warg_verify_inclusion(TEXT(LOGS[other % 3]), TEXT(RECORDS[other]), place, length, told.text,
                                                    ID_LEN, shown.text, shown.used);
            CHECK(status == (other == place ? WARG_OK : WARG_REFUSED));
        }
        struct warg_registry old = {0};
        open_with(&old, (unsigned)place);
        struct told before = roots_of(&old);
        CHECK(warg_registry_consistency(registry, place, shown.text, sizeof shown.text, &shown.used) == WARG_OK);
        CHECK(warg_verify_consistency(place, before.text, ID_LEN, length, told.text, ID_LEN, shown.text, shown.used) == WARG_OK);
        warg_registry_close(&old);
    }
    CHECK(warg_registry_consistency(registry, length, shown.text, sizeof shown.text, &shown.used) == WARG_OK && shown.used == 0);
}

static void test_answers(void) {
    struct warg_registry registry = {0};
    open_with(&registry, 0);
    CHECK(length_of(&registry) == 0);
    struct told none = roots_of(&registry);
    CHECK(is_root(none.text, ROOT_0) && is_root(none.text + ID_LEN, NO_HEADS));
    check_head(&registry, LOGS[0], NULL);
    for (unsigned at = 0; at < 6; at++)
        CHECK(push(&registry, at) == WARG_OK);
    CHECK(is_root(roots_of(&registry).text, ROOT_6));
    check_head(&registry, LOGS[0], RECORDS[3]);
    CHECK(push(&registry, 6) == WARG_OK && push(&registry, 7) == WARG_OK);
    CHECK(length_of(&registry) == 8 && is_root(roots_of(&registry).text, ROOT_8));
    check_head(&registry, LOGS[0], RECORDS[6]);
    check_head(&registry, LOGS[1], RECORDS[7]);
    check_head(&registry, LOGS[2], RECORDS[5]);
    check_head(&registry, NO_LOG, NULL);
    check_log_proofs(&registry);
    warg_registry_close(&registry);
    warg_registry_close(&registry);
}

/* What is past the end, of no form, too small, or of no registry. */
static void test_refusals(void) {
    struct warg_registry registry = {0};
    uint64_t number = 7;
    struct proof shown = {{9}, 1, {3, 4}};
    struct warg_roots roots = {3, 4};
    CHECK(warg_registry_length(&registry, &number) == WARG_NOT_OPEN && number == 7);
    CHECK(warg_registry_push(&registry, TEXT(LOGS[0]), TEXT(RECORDS[0]), &number) == WARG_NOT_OPEN && number == 7);
    CHECK(warg_registry_roots(&registry, shown.text, 1, &shown.used, &roots) == WARG_NOT_OPEN && shown.used == 0);
    open_with(&registry, 2);
    struct told before = roots_of(&registry);
    CHECK(warg_registry_push(&registry, TEXT("log"), TEXT(RECORDS[0]), &number) == WARG_BAD_ARGUMENT && number == 7);
    CHECK(warg_registry_push(&registry, TEXT(LOGS[0]), TEXT("\xff"), &number) == WARG_BAD_ARGUMENT && number == 7);
    CHECK(warg_registry_inclusion(&registry, 2, shown.text, 9, &shown.used) == WARG_NONE && shown.used == 0);
    CHECK(warg_registry_inclusion(&registry, UINT64_MAX, shown.text, 9, &shown.used) == WARG_NONE && shown.used == 0);
    CHECK(warg_registry_consistency(&registry, 3, shown.text, 9, &shown.used) == WARG_NONE && shown.used == 0);
    CHECK(warg_registry_inclusion(&registry, 1, shown.text, 43, &shown.used) == WARG_TOO_SMALL && shown.used == 44);
    CHECK(warg_registry_head(&registry, TEXT("log"), shown.text, 9, &shown.used, &shown.head) == WARG_BAD_ARGUMENT);
    CHECK(shown.used == 0 && shown.head.record_id_len == 3 && shown.head.proof_len == 4);
    CHECK(warg_registry_roots(&registry, shown.text, 141, &shown.used, &roots) == WARG_TOO_SMALL && shown.used == 142);
    CHECK(roots.log_root_len == ID_LEN && roots.map_root_len == ID_LEN && shown.text[0] == 9);
    struct told after = roots_of(&registry);
    CHECK(memcmp(before.text, after.text, sizeof after.text) == 0);
    warg_registry_close(&registry);
}

/* Each request of each push refused in turn: both trees stay as they were, and the same push is done then. */
static long test_memory(void) {
    long all = 0;
    struct warg_registry registry = {0};
    open_with(&registry, 0);
    for (unsigned at = 0; at < 8; at++) {
        for (long place = 0;; place++) {
            struct told before = roots_of(&registry);
            refuse_request(place);
            uint32_t status = push(&registry, at);
            bool is_refused = was_refused();
            if (status == WARG_OK) {
                all += place;
                break;
            }
            CHECK(is_refused && status == WARG_OUT_OF_MEMORY && length_of(&registry) == at);
            struct told after = roots_of(&registry);
            CHECK(memcmp(before.text, after.text, sizeof after.text) == 0);
        }
    }
    CHECK(is_root(roots_of(&registry).text, ROOT_8));
    check_log_proofs(&registry);
    warg_registry_close(&registry);
    return all;
}

/* The bytes of the first leaves, by their texts. */
static size_t saved_of(unsigned count, uint8_t *bytes) {
    size_t used = 0;
    for (unsigned at = 0; at < count; at++) {
        const char *const ids[] = {LOGS[at % 3], RECORDS[at]};
        for (unsigned id = 0; id < 2; id++)
            for (unsigned place = 0; place < 32; place++) {
                unsigned byte;
                CHECK(sscanf(ids[id] + 7 + 2 * place, "%2x", &byte) == 1);
                bytes[used++] = (uint8_t)byte;
            }
    }
    return used;
}

/* The registry has these first leaves, and saves them. */
static void check_leaves(struct warg_registry *registry, unsigned count) {
    uint8_t wanted[512], saved[513];
    size_t size = saved_of(count, wanted), used = 7;
    struct warg_registry pushed = {0};
    open_with(&pushed, count);
    struct told left = roots_of(registry), right = roots_of(&pushed);
    warg_registry_close(&pushed);
    CHECK(memcmp(left.text, right.text, sizeof left.text) == 0 && length_of(registry) == count);
    memset(saved, 9, sizeof saved);
    CHECK(warg_registry_save(registry, saved, sizeof saved, &used) == WARG_OK && used == size);
    CHECK(memcmp(saved, wanted, size) == 0 && saved[size] == 9);
    CHECK(warg_registry_save(registry, saved, size, &used) == WARG_OK && used == size);
    for (unsigned log = 0; log < 3; log++)
        check_head(registry, LOGS[log], count > log ? RECORDS[(count - 1 - log) / 3 * 3 + log] : NULL);
    check_head(registry, NO_LOG, NULL);
}

/* Trees of saved leaves are those to which the leaves were pushed, and go on as they do. */
static void test_saved(void) {
    uint8_t bytes[512], byte = 7;
    size_t used = 7, size = saved_of(8, bytes);
    struct warg_registry registry = {0};
    CHECK(warg_registry_save(&registry, &byte, 1, &used) == WARG_NOT_OPEN && used == 0 && byte == 7);
    for (unsigned count = 0; count <= 8; count++) {
        /* What was open is closed first. */
        CHECK(warg_registry_resume(&registry, bytes, 64 * count) == WARG_OK);
        check_leaves(&registry, count);
        for (unsigned at = count; at < 8; at++)
            CHECK(push(&registry, at) == WARG_OK);
        CHECK(is_root(roots_of(&registry).text, ROOT_8));
        check_leaves(&registry, 8);
        if (count == 3 || count == 8)
            check_log_proofs(&registry);
    }
    for (size_t length = 1; length < size; length += 21) {
        if (length % 64 == 0)
            continue;
        CHECK(warg_registry_resume(&registry, bytes, length) == WARG_BAD_ARGUMENT);
        CHECK(length_of(&registry) == 8);
    }
    memset(bytes, 9, sizeof bytes);
    CHECK(warg_registry_save(&registry, bytes, size - 1, &used) == WARG_TOO_SMALL && used == size && bytes[0] == 9);
    check_leaves(&registry, 8);
    warg_registry_close(&registry);
    CHECK(warg_registry_resume(&registry, bytes, 63) == WARG_BAD_ARGUMENT);
    CHECK(warg_registry_save(&registry, &byte, 1, &used) == WARG_NOT_OPEN);
    warg_registry_close(&registry);
}

/* Each request of saving and of resuming refused in turn: what was open stays as it was. */
static long test_saved_memory(void) {
    uint8_t bytes[512], saved[512];
    size_t used, size = saved_of(8, bytes);
    long all = 0;
    struct warg_registry registry = {0};
    open_with(&registry, 3);
    for (bool is_refused = true; is_refused; all += is_refused) {
        refuse_request(all);
        uint32_t status = warg_registry_save(&registry, saved, sizeof saved, &used);
        is_refused = was_refused();
        CHECK(status == WARG_OK || (is_refused && status == WARG_OUT_OF_MEMORY));
        CHECK(used == (status == WARG_OK ? 192 : 0) && length_of(&registry) == 3);
    }
    for (long place = 0;; place++) {
        refuse_request(place);
        uint32_t status = warg_registry_resume(&registry, bytes, size);
        bool is_refused = was_refused();
        if (status == WARG_OK) {
            all += place;
            break;
        }
        CHECK(is_refused && status == WARG_OUT_OF_MEMORY);
        check_leaves(&registry, 3);
    }
    check_leaves(&registry, 8);
    warg_registry_close(&registry);
    return all;
}

int main(void) {
    test_answers();
    test_refusals();
    test_saved();
    printf("%ld requests refused\n", test_memory() + test_saved_memory());
    return 0;
}
