/* The JSON texts of signed checkpoints: written by the members of docs/FORMATS.md, read back, in other orders and with other members too; texts that
 * are none, buffers that are too small, and each request for memory refused. */
#include "check.h"
#include "refusing.h"

#include <stdbool.h>
#include <warg.h>

#define TEXT(words) (const uint8_t *)(words), strlen(words)

#define ROOT "sha256:0915e5e33416c991c2ac5d07c3499bbf68952d248c16afdc509217beede803e8"
#define UPPER_ROOT "sha256:0915E5E33416C991C2AC5D07C3499BBF68952D248C16AFDC509217BEEDE803E8"
#define MAP_ROOT "sha256:6b3b29793c461452ef689fdfac26511b3862f7b70a4f576163ca60308bad21e6"
#define SIGNATURE "toy:YWxpY2U="
#define ID_LEN 71

static uint8_t room[1024];
static size_t used;

/* A signed checkpoint as a call says it. */
struct signed_one {
    uint64_t log_length;
    const char *log_root, *map_root;
    uint64_t timestamp;
    const char *key_id, *signature;
};
static const struct signed_one plain = {8, ROOT, MAP_ROOT, 1700000000, "sha256:00", SIGNATURE};
/* What stands where nothing was written. */
static const struct warg_signed_checkpoint untouched = {1, 2, 3, 4, 5, 6};

static uint32_t written(const struct signed_one *it, size_t len) {
    return warg_checkpoint_text(it->log_length, TEXT(it->log_root), TEXT(it->map_root), it->timestamp, TEXT(it->key_id), TEXT(it->signature),
                                room, len, &used);
}

/* The call wrote this text, and nothing behind it. */
static bool wrote(uint32_t status, const char *wanted) {
    bool is_whole = status == WARG_OK && used == strlen(wanted) && !memcmp(room, wanted, used);
    for (size_t i = used; is_whole && i < sizeof room; i++)
        is_whole = room[i] == 7;
    memset(room, 7, sizeof room);
    return is_whole;
}
/* The call wrote nothing. */
static bool wrote_nothing(void) {
    for (size_t i = 0; i < sizeof room; i++)
        if (room[i] != 7)
            return false;
    return true;
}

/* The JSON of a signed checkpoint, with its members in the order of their names; the key's id as it is quoted. */
static const char *json_of(const struct signed_one *it, const char *quoted_id) {
    static char json[1024];
    snprintf(json, sizeof json,
             "{\"contents\":{\"logLength\":%llu,\"logRoot\":\"%s\",\"mapRoot\":\"%s\",\"timestamp\":%llu},\"keyId\":\"%s\",\"signature\":\"%s\"}",
             (unsigned long long)it->log_length, it->log_root, it->map_root, (unsigned long long)it->timestamp, quoted_id, it->signature);
    return json;
}

/* The JSON says this, by the call that reads it. */
static bool says(const char *json, const struct signed_one *it) {
    struct warg_signed_checkpoint found = untouched;
    char wanted[1024];
    snprintf(wanted, sizeof wanted, "%s%s%s%s", it->log_root, it->map_root, it->key_id, it->signature);
    return wrote(warg_read_checkpoint(TEXT(json), room, sizeof room, &used, &found), wanted) && found.log_length == it->log_length &&
           found.timestamp == it->timestamp && found.log_root_len == ID_LEN && found.map_root_len == ID_LEN &&
           found.key_id_len == strlen(it->key_id) && found.signature_len == strlen(it->signature);
}

/* The JSON is refused by an error of this name. */
static bool is_refused(const char *json, size_t len, const char *name) {
    struct warg_signed_checkpoint found = untouched;
    uint32_t status = warg_read_checkpoint((const uint8_t *)json, len, room, sizeof room, &used, &found);
    bool is_told = status == WARG_BAD_ARGUMENT && BEGINS(room, used, name) && used > strlen(name) + 2 && room[strlen(name)] == ':';
    memset(room, 7, sizeof room);
    return is_told && !memcmp(&found, &untouched, sizeof found);
}

static void test_texts(void) {
    static const uint64_t numbers[] = {0, 1, UINT32_MAX, UINT64_C(1) << 53, UINT64_C(1) << 63, UINT64_MAX};
    for (size_t i = 0; i < 36; i++) {
        struct signed_one it = plain;
        it.log_length = numbers[i / 6];
        it.timestamp = numbers[i % 6];
        CHECK(wrote(written(&it, sizeof room), json_of(&it, it.key_id)));
        CHECK(says(json_of(&it, it.key_id), &it));
    }
    /* Any text is a key id, and is quoted: these are a quote, a backslash, a line feed, and two characters beyond ASCII. */
    struct signed_one it = plain;
    it.key_id = "\"\\\n\xc3\xa9\xf0\x9f\x98\x80";
    CHECK(wrote(written(&it, sizeof room), json_of(&it, "\\\"\\\\\\n\xc3\xa9\xf0\x9f\x98\x80")));
    CHECK(says(json_of(&it, "\\\"\\\\\\n\xc3\xa9\xf0\x9f\x98\x80"), &it));
    CHECK(says(json_of(&it, "\\u0022\\u005c\\u000a\\u00e9\\ud83d\\ude00"), &it));
    it.key_id = "";
    CHECK(wrote(written(&it, sizeof room), json_of(&it, "")) && says(json_of(&it, ""), &it));
    /* A root is written with small digits, whatever it was said with. */
    it = plain;
    it.log_root = UPPER_ROOT;
    CHECK(wrote(written(&it, sizeof room), json_of(&plain, plain.key_id)));
    CHECK(says(json_of(&it, it.key_id), &plain));
}

/* Members in another order, with others beside them, and one that comes twice, of which the last counts. */
static void test_other_texts(void) {
    CHECK(says(" {\"signature\" : \"" SIGNATURE "\", \"more\": [1.5, {\"keyId\": 1}], \"keyId\": \"other\", \"keyId\": \"sha256:00\",\n"
               "\"contents\": {\"timestamp\": 1700000000, \"signature\": null, \"mapRoot\": \"" MAP_ROOT "\", \"logRoot\": \"" ROOT
               "\", \"logLength\": 8}}\n",
               &plain));
}

static void test_no_texts(void) {
    char json[1024];
    /* A part of the JSON, what stands there instead, and the error. */
    const char *const wrong[][3] = {
        {"\"contents\"", "\"content\"", "Missing"}, {"\"logRoot\"", "\"logroot\"", "Missing"}, {"\"logLength\"", "\"length\"", "Missing"},
        {"\"mapRoot\"", "\"root\"", "Missing"},     {"\"timestamp\"", "\"time\"", "Missing"},  {"\"keyId\"", "\"key\"", "Missing"},
        {"\"signature\"", "\"s\"", "Missing"},      {":8,", ":-8,", "WrongType"},              {":8,", ":8.5,", "WrongType"},
        {":8,", ":18446744073709551616,", "WrongType"},                                        {":8,", ":\"8\",", "WrongType"},
        {":1700000000}", ":null}", "WrongType"},    {"\"sha256:00\"", "7", "WrongType"},       {"\"" SIGNATURE "\"", "[]", "WrongType"},
        {"\"" ROOT "\"", "{}", "WrongType"},        {ROOT, "sha256:00", "BadText"},            {MAP_ROOT, "", "BadText"},
        {SIGNATURE, "toy", "BadText"},              {SIGNATURE, "toy:!", "BadText"},           {SIGNATURE, ":YWxpY2U=", "BadText"},
        {"{\"contents\"", "[\"contents\"", "NotJson"}, {"\"keyId\"", "keyId", "NotJson"},      {",\"keyId\"", ",,\"keyId\"", "NotJson"},
    };
    for (size_t i = 0; i < sizeof wrong / sizeof *wrong; i++) {
        const char *whole = json_of(&plain, plain.key_id), *at = strstr(whole, wrong[i][0]);
        CHECK(at);
        snprintf(json, sizeof json, "%.*s%s%s", (int)(at - whole), whole, wrong[i][1], at + strlen(wrong[i][0]));
        CHECK(is_refused(json, strlen(json), wrong[i][2]));
    }
    snprintf(json, sizeof json, "%s 1", json_of(&plain, plain.key_id));
    CHECK(is_refused(json, strlen(json), "NotJson") && is_refused(json, strlen(json) - 3, "NotJson"));
    CHECK(is_refused("", 0, "NotJson") && is_refused("\xff", 1, "NotJson") && is_refused("null", 4, "WrongType"));
    CHECK(is_refused("[]", 2, "WrongType") && is_refused("{}", 2, "Missing") && is_refused("{}\0", 3, "NotJson"));
    /* The text of an error has to find room. */
    struct warg_signed_checkpoint found = untouched;
    CHECK(warg_read_checkpoint(TEXT("{}"), room, 7, &used, &found) == WARG_BAD_ARGUMENT && !used && wrote_nothing());
}

static void test_arguments(void) {
    static const char *const no_hashes[] = {"", "sha256", "sha256:00", UPPER_ROOT " ", "\xff"};
    for (size_t i = 0; i < sizeof no_hashes / sizeof *no_hashes; i++) {
        struct signed_one one = plain, other = plain;
        one.log_root = other.map_root = no_hashes[i];
        CHECK(written(&one, sizeof room) == WARG_BAD_ARGUMENT && !used && written(&other, sizeof room) == WARG_BAD_ARGUMENT && !used);
    }
    static const char *const no_signatures[] = {"", "toy", ":YWxpY2U=", "toy:!", "toy:YWxpY2U", SIGNATURE "\n", "\xff"};
    for (size_t i = 0; i < sizeof no_signatures / sizeof *no_signatures; i++) {
        struct signed_one it = plain;
        it.signature = no_signatures[i];
        CHECK(written(&it, sizeof room) == WARG_BAD_ARGUMENT && !used);
    }
    struct signed_one it = plain;
    it.key_id = "\xff";
    CHECK(written(&it, sizeof room) == WARG_BAD_ARGUMENT && !used && wrote_nothing());
}

/* Buffers that are too small say how much is needed; what else a call gives is written then. */
static void test_small_buffers(void) {
    const char *json = json_of(&plain, plain.key_id);
    size_t len = strlen(json), parts = 2 * ID_LEN + strlen(plain.key_id) + strlen(plain.signature);
    for (size_t less = 1; less < 4; less++) {
        struct warg_signed_checkpoint found = untouched;
        CHECK(written(&plain, len - less * less) == WARG_TOO_SMALL && used == len && wrote_nothing());
        CHECK(warg_read_checkpoint(TEXT(json), room, parts - less, &used, &found) == WARG_TOO_SMALL && used == parts && wrote_nothing());
        CHECK(found.log_length == 8 && found.timestamp == 1700000000 && found.signature_len == strlen(SIGNATURE));
    }
    CHECK(wrote(written(&plain, len), json));
    struct warg_signed_checkpoint found = untouched;
    CHECK(warg_read_checkpoint(TEXT(json), room, parts, &used, &found) == WARG_OK && used == parts && room[parts] == 7);
    memset(room, 7, sizeof room);
}

static uint32_t write_one(void) { return written(&plain, sizeof room); }
static uint32_t read_one(void) {
    struct warg_signed_checkpoint found = untouched;
    uint32_t status = warg_read_checkpoint(TEXT(json_of(&plain, plain.key_id)), room, sizeof room, &used, &found);
    CHECK(!memcmp(&found, &untouched, sizeof found) == (status != WARG_OK));
    return status;
}
static uint32_t read_none(void) {
    struct warg_signed_checkpoint found = untouched;
    return warg_read_checkpoint(TEXT("{\"contents\":{}}"), room, sizeof room, &used, &found);
}

/* Refuses each request of a call in turn: it then says that there was no memory and writes nothing, or does without. */
static long refuse_each(uint32_t call(void), uint32_t wanted) {
    for (long place = 0;; place++) {
        refuse_request(place);
        uint32_t status = call();
        if (!was_refused()) {
            CHECK(status == wanted && used);
            memset(room, 7, sizeof room);
            return place;
        }
        CHECK(status == WARG_OUT_OF_MEMORY ? !used && wrote_nothing() : status == wanted);
        memset(room, 7, sizeof room);
    }
}

int main(void) {
    memset(room, 7, sizeof room);
    test_texts();
    test_other_texts();
    test_no_texts();
    test_arguments();
    test_small_buffers();
    long all = refuse_each(write_one, WARG_OK) + refuse_each(read_one, WARG_OK) + refuse_each(read_none, WARG_BAD_ARGUMENT);
    CHECK(all > 10);
    printf("%ld requests refused\n", all);
    return 0;
}
