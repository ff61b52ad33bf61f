/* Proofs of a registry's log of 8 leaves and of its map of two logs: what holds, what does not, texts that are of no form, and each request for memory
 * refused. */
#include "check.h"
#include "refusing.h"

#include <warg.h>

#define INCLUSION                                                                                                      \
    "bML0VncumO1gymhI9p9DawMcQnVTNa2WUrNw14Aq7DELD7yQO/3GX1TnDyNdlyNl+BI5/0o0nLbP5Kt1TH2/cg371IIl6nKYXW5cNRhz0vRw+5C8x4Ij" \
    "FkOBx8eooRUN"
#define CONSISTENCY                                                                                                    \
    "wvE5Wb/Jqop3nsQ6f2wHydAFG6uJNOVcji8dnUA6//YLD7yQO/3GX1TnDyNdlyNl+BI5/0o0nLbP5Kt1TH2/cg371IIl6nKYXW5cNRhz0vRw+5C8x4Ij" \
    "FkOBx8eooRUN"
#define PRESENCE "//////////////////////////////////////////3A8d/zksmUM6URQFUFx4j90WyBlQhgSMcs1XArvTUtmA=="
#define ABSENCE                                                                                                        \
    "//////////////////////////////////////////kD9Qnw3FPJsRDX8sHizDLkLf83af8CgoV9sRxfkXpx08Dx3/OSyZQzpRFAVQXHiP3RbIGVCGBI" \
    "xyzVcCu9NS2Y"
/* The digests of the texts `log 0`, `log 2`, `record 5` and `record 6`. */
#define LOG_0 "sha256:f24e3c07541a1385301129bde0a481e00c71972691b5e5788e97a16cf187d79b"
#define LOG_2 "sha256:d912d1199b4042f4dfe339e1070db6de911b4fa88de09b22f6fd5f803449e782"
#define RECORD_5 "sha256:28fdd77254977237364a167ba289ff718fbe76799cfd983dbf447346fa62a033"
#define RECORD_6 "sha256:ff265ddacaf872945c31beb9ab4820014bfe1f9990967ee612d9e9578d843126"
#define ROOT_6 "sha256:1ea551254584ab55c648eee900f31a3fb7bb2d5474d3ea0fa23caa2905b6e9c5"
#define ROOT_8 "sha256:0915e5e33416c991c2ac5d07c3499bbf68952d248c16afdc509217beede803e8"
#define MAP_ROOT "sha256:6b3b29793c461452ef689fdfac26511b3862f7b70a4f576163ca60308bad21e6"

#define TEXT(words) (const uint8_t *)(words), strlen(words)

static uint32_t inclusion(const char *record, uint64_t place, const char *proof) {
    return warg_verify_inclusion(TEXT(LOG_2), TEXT(record), place, 8, TEXT(ROOT_8), TEXT(proof));
}
static uint32_t inclusion_of(uint64_t length) {
    return warg_verify_inclusion(TEXT(LOG_2), TEXT(RECORD_5), 5, length, TEXT(ROOT_8), TEXT(INCLUSION));
}
static uint32_t consistency(uint64_t old_length, const char *old_root, const char *proof) {
    return warg_verify_consistency(old_length, TEXT(old_root), 8, TEXT(ROOT_8), TEXT(proof));
}
static uint32_t presence(const char *record, const char *root, const char *proof) {
    return warg_verify_presence(TEXT(LOG_0), TEXT(record), TEXT(root), TEXT(proof));
}
static uint32_t absence(const char *log, const char *root, const char *proof) {
    return warg_verify_absence(TEXT(log), TEXT(root), TEXT(proof));
}

/* The fault of the proof is of this name. */
static bool has_fault(uint32_t tree, const char *proof, size_t len, const char *name) {
    uint8_t text[16] = {0};
    size_t used = 0;
    uint32_t status = warg_proof_fault(tree, (const uint8_t *)proof, len, text, sizeof text, &used);
    return status == WARG_OK && used == strlen(name) && memcmp(text, name, used) == 0;
}
static uint32_t fault(uint32_t tree, const char *proof) {
    uint8_t text[16] = {0};
    size_t used = 0;
    uint32_t status = warg_proof_fault(tree, TEXT(proof), text, sizeof text, &used);
    CHECK(status == WARG_OK || used == 0);
    return status;
}

/* Texts that are no proof, each by the name of its fault. */
static void test_faults(void) {
    static char many[10972];
    memset(many, 'A', sizeof many);
    CHECK(has_fault(WARG_LOG_TREE, many, 2733, "TooLong"));
    CHECK(has_fault(WARG_LOG_TREE, many, 2732, "BadLength"));
    CHECK(has_fault(WARG_LOG_TREE, "AA==", 4, "BadLength"));
    CHECK(has_fault(WARG_LOG_TREE, "!", 1, "BadBase64"));
    CHECK(has_fault(WARG_LOG_TREE, "\xff", 1, "BadBase64"));
    CHECK(has_fault(WARG_MAP_TREE, many, 10969, "TooLong"));
    CHECK(has_fault(WARG_MAP_TREE, many, 10968, "BadLength"));
    CHECK(has_fault(WARG_MAP_TREE, "", 0, "BadLength"));
    CHECK(has_fault(WARG_MAP_TREE, "!", 1, "BadBase64"));
    CHECK(fault(WARG_LOG_TREE, "") == WARG_NONE);
    CHECK(fault(WARG_LOG_TREE, INCLUSION) == WARG_NONE);
    CHECK(fault(WARG_MAP_TREE, PRESENCE) == WARG_NONE);
    CHECK(fault(2, INCLUSION) == WARG_BAD_ARGUMENT);
    CHECK(fault(UINT32_MAX, INCLUSION) == WARG_BAD_ARGUMENT);
    uint8_t text[4] = {1, 2, 3, 4};
    size_t used = 0;
    CHECK(warg_proof_fault(WARG_LOG_TREE, TEXT("!"), text, sizeof text, &used) == WARG_TOO_SMALL && used == 9);
    CHECK(text[0] == 1 && text[3] == 4);
}

static uint32_t named_fault(void) { return fault(WARG_LOG_TREE, "AA=="); }

static uint32_t lawful_inclusion(void) { return inclusion(RECORD_5, 5, INCLUSION); }
static uint32_t lawful_consistency(void) { return consistency(6, ROOT_6, CONSISTENCY); }
static uint32_t lawful_presence(void) { return presence(RECORD_6, MAP_ROOT, PRESENCE); }
static uint32_t lawful_absence(void) { return absence(LOG_2, MAP_ROOT, ABSENCE); }

/* Refuses each request of a call in turn: it then says that there was no memory, or does without. */
static long refuse_each(uint32_t call(void)) {
    for (long place = 0;; place++) {
        refuse_request(place);
        uint32_t status = call();
        if (!was_refused()) {
            CHECK(status == WARG_OK);
            return place;
        }
        CHECK(status == WARG_OUT_OF_MEMORY || status == WARG_OK);
    }
}

int main(void) {
    CHECK(inclusion(RECORD_6, 5, INCLUSION) == WARG_REFUSED);
    CHECK(inclusion(RECORD_5, 4, INCLUSION) == WARG_REFUSED);
    CHECK(inclusion(RECORD_5, UINT64_MAX, INCLUSION) == WARG_REFUSED);
    CHECK(inclusion(RECORD_5, 5, "") == WARG_REFUSED);
    /* The proof has the same form in a log of 7: a root is worth nothing without the length that is signed with it. */
    CHECK(inclusion_of(9) == WARG_REFUSED);
    CHECK(inclusion_of(7) == WARG_OK);
    CHECK(inclusion_of(6) == WARG_REFUSED);
    CHECK(inclusion(RECORD_5, 5, "!") == WARG_BAD_ARGUMENT);
    CHECK(inclusion("sha256:00", 5, INCLUSION) == WARG_BAD_ARGUMENT);
    CHECK(inclusion("\xff", 5, INCLUSION) == WARG_BAD_ARGUMENT);
    CHECK(consistency(5, ROOT_6, CONSISTENCY) == WARG_REFUSED);
    CHECK(consistency(8, ROOT_8, "") == WARG_OK);
    CHECK(consistency(6, "", CONSISTENCY) == WARG_BAD_ARGUMENT);
    CHECK(presence(RECORD_5, MAP_ROOT, PRESENCE) == WARG_REFUSED);
    CHECK(presence(RECORD_6, ROOT_8, PRESENCE) == WARG_REFUSED);
    CHECK(presence(RECORD_6, MAP_ROOT, "A") == WARG_BAD_ARGUMENT);
    CHECK(absence(LOG_0, MAP_ROOT, PRESENCE) == WARG_REFUSED);
    CHECK(absence("log", MAP_ROOT, ABSENCE) == WARG_BAD_ARGUMENT);
    test_faults();
    long all = refuse_each(named_fault) + refuse_each(lawful_inclusion) + refuse_each(lawful_consistency) + refuse_each(lawful_presence) +
               refuse_each(lawful_absence);
    printf("%ld requests refused\n", all);
    return 0;
}
