/* Each wrong use that the library can see has its status, and leaves the log as it was; what came in an odd form is kept in the ordinary one. */
#include "../p256.h"
#include "check.h"
#include "logs.h"

static uint8_t text[8192];
static size_t used;
static struct warg_asked asked;
static struct warg_release release;
static struct warg_comparison comparison;
static const uint8_t *const nothing = (const uint8_t *)"";

static const uint8_t *bytes_of(const char *words) {
    return (const uint8_t *)words;
}

/* Makes each call that takes a log, with arguments that would do on a log of a package or of operators. */
static void expect_all(struct warg_log *log, const struct bytes *envelope, uint32_t status) {
    static struct warg_kept kept;
    static struct warg_link links[4];
    uint32_t is_imported = 0;
    size_t length = 0;
    struct warg_head last = {.seconds = 7, .count = 7};
    struct warg_log other = {0};
    CHECK(warg_ask(log, envelope->at, envelope->len, text, sizeof text, &used, &asked) == status && used == 0);
    CHECK(warg_append(log, envelope->at, envelope->len, text, 0, &asked, true, text + 1, 1, &used) == status && used == 0);
    CHECK(warg_append_signed(log, envelope->at, envelope->len, text, sizeof text, &used) == status && used == 0);
    CHECK(warg_head(log, text, sizeof text, &used) == status && used == 0);
    CHECK(warg_length(log, &length) == status);
    CHECK(warg_head_of(log, &last) == status && last.seconds == 7 && last.count == 7);
    CHECK(warg_record(log, 0, text, sizeof text, &used, &kept) == status && used == 0);
    CHECK(warg_latest(log, bytes_of("*"), 1, text, sizeof text, &used, &release) == status && used == 0);
    CHECK(warg_release(log, bytes_of("1.0.0"), 5, text, sizeof text, &used, &release) == status && used == 0);
    CHECK(warg_releases(log, 0, text, sizeof text, &used, &release) == status && used == 0);
    CHECK(warg_namespace(log, bytes_of("own"), 3, text, sizeof text, &used, &is_imported) == status && used == 0);
    CHECK(warg_holds(log, bytes_of("x"), 1, bytes_of("yank"), 4) == status);
    CHECK(warg_permissions(log, bytes_of("x"), 1, text, sizeof text, &used) == status && used == 0);
    CHECK(warg_key(log, bytes_of("x"), 1, text, sizeof text, &used) == status && used == 0);
    CHECK(warg_chain(log, bytes_of("x"), 1, bytes_of("yank"), 4, links, 4, &used) == status && used == 0);
    CHECK(warg_compare(log, &other, &comparison) == status);
    CHECK(warg_save(log, text, sizeof text, &used) == status && used == 0);
    CHECK(warg_verify_checkpoint(log, 0, nothing, 0, nothing, 0, 0, nothing, 0, nothing, 0) == status);
}

/* A log that was never opened, or was closed. */
static void no_log(const struct bytes *envelope) {
    struct warg_log log = {0};
    expect_all(&log, envelope, WARG_NOT_OPEN);
    warg_close(&log);
    CHECK(warg_open(&log, WARG_PACKAGE) == WARG_OK);
    CHECK(warg_head(&log, text, sizeof text, &used) == WARG_NONE);
    warg_close(&log);
    warg_close(&log);
    expect_all(&log, envelope, WARG_NOT_OPEN);
}

/* A kept envelope is written anew: it lacks a signature that a later one overrides, and a field that no envelope has. */
static void written_anew(const struct bytes *envelope) {
    static const uint8_t overridden[] = {0x1a, 0}, unknown[] = {0x78, 1};
    struct warg_log log = {0};
    struct warg_kept kept;
    struct bytes strange = {0}, said = {0};
    bytes_add(&strange, overridden, sizeof overridden);
    bytes_add(&strange, envelope->at, envelope->len);
    bytes_add(&strange, unknown, sizeof unknown);
    CHECK(warg_open(&log, WARG_PACKAGE) == WARG_OK);
    CHECK(append(&log, &strange, &said) == WARG_OK);
    CHECK(warg_record(&log, 0, text, sizeof text, &used, &kept) == WARG_OK);
    CHECK(kept.envelope_len == envelope->len && !memcmp(text, envelope->at, envelope->len));
    warg_close(&log);
    bytes_free(&strange);
    bytes_free(&said);
}

/* Opening one that is open begins it anew; where that is refused, it stays. */
static void opened_again(struct warg_log *log, const struct bytes *envelope) {
    size_t length = 0;
    struct warg_head last = {0};
    struct bytes said = {0};
    CHECK(warg_open(log, 2) == WARG_BAD_ARGUMENT);
    CHECK(warg_open(log, UINT32_MAX) == WARG_BAD_ARGUMENT);
    CHECK(warg_length(log, &length) == WARG_OK && length == 3);
    CHECK(warg_open(log, WARG_OPERATOR) == WARG_OK);
    CHECK(warg_length(log, &length) == WARG_OK && length == 0);
    CHECK(warg_head_of(log, &last) == WARG_NONE);
    CHECK(warg_open(log, WARG_PACKAGE) == WARG_OK);
    CHECK(append(log, envelope, &said) == WARG_OK);
    CHECK(warg_length(log, &length) == WARG_OK && length == 1);
    CHECK(warg_head_of(log, &last) == WARG_OK && last.count == 1 && last.is_counted == 1 && last.seconds == 1700000000);
    bytes_free(&said);
}

/* Lengths of 0, and of a question whose parts reach beyond its end or are no texts. */
static void lengths(struct warg_log *log, const struct bytes *envelope) {
    struct bytes question = {0};
    CHECK(warg_ask(log, nothing, 0, text, sizeof text, &used, &asked) == WARG_NO_ENVELOPE);
    CHECK(BEGINS(text, used, "Contents.MissingTime: "));
    CHECK(warg_append_signed(log, nothing, 0, text, sizeof text, &used) == WARG_NO_ENVELOPE);
    CHECK(BEGINS(text, used, "Contents.MissingTime: "));
    CHECK(warg_verify(nothing, 0, nothing, 0, nothing, 0) == WARG_BAD_ARGUMENT);
    CHECK(warg_ask(log, nothing, 0, text, 0, &used, &asked) == WARG_NO_ENVELOPE && used == 0);
    CHECK(ask(log, envelope, &question, &asked) == WARG_OK);
    size_t whole = question.len;
    struct warg_asked parts[] = {
        {asked.key_len, asked.message_len, asked.signature_len + 1},
        {asked.key_len, whole, asked.signature_len},
        {whole + 1, 0, 0},
        {SIZE_MAX, SIZE_MAX, SIZE_MAX},
        {0, SIZE_MAX, 1},
        {1, whole - 1, SIZE_MAX},
        {0, 0, 0},
        {asked.key_len - 1, asked.message_len + 1, asked.signature_len},
        {2, asked.message_len, asked.signature_len},
    };
    for (size_t i = 0; i < sizeof parts / sizeof *parts; i++) {
        uint32_t status = warg_append(log, envelope->at, envelope->len, question.at, whole, &parts[i], true, text,
                                      sizeof text, &used);
        /* A key that is cut short may still be a key, and is then another question's. */
        CHECK(status == (i == 7 ? status : WARG_BAD_ARGUMENT) && status != WARG_OK);
        CHECK(status != WARG_BAD_ARGUMENT || BEGINS(text, used, "BadQuestion: "));
    }
    CHECK(warg_append(log, envelope->at, envelope->len, nothing, 0, &asked, true, text, sizeof text, &used) ==
          WARG_BAD_ARGUMENT);
    CHECK(warg_append(log, envelope->at, envelope->len, nothing, 0, &asked, true, text, 5, &used) == WARG_BAD_ARGUMENT && !used);
    question.at[0] = 0xff;
    CHECK(warg_append(log, envelope->at, envelope->len, question.at, whole, &asked, true, text, sizeof text, &used) ==
          WARG_BAD_ARGUMENT);
    bytes_free(&question);
}

/* Buffers that are too small say how much is needed, and a byte less is too small again. */
static void small_buffers(struct warg_log *log, const struct bytes *envelope) {
    struct warg_link link;
    CHECK(warg_ask(log, envelope->at, envelope->len, text, 0, &used, &asked) == WARG_TOO_SMALL);
    CHECK(used == asked.key_len + asked.message_len + asked.signature_len);
    CHECK(warg_ask(log, envelope->at, envelope->len, text, used - 1, &used, &asked) == WARG_TOO_SMALL);
    CHECK(warg_ask(log, envelope->at, envelope->len, text, used, &used, &asked) == WARG_OK);
    CHECK(warg_head(log, text, 0, &used) == WARG_TOO_SMALL && used == 71);
    CHECK(warg_head(log, text, 70, &used) == WARG_TOO_SMALL && used == 71);
    CHECK(warg_head(log, text, 71, &used) == WARG_OK && used == 71);
    CHECK(warg_releases(log, 0, text, 1, &used, &release) == WARG_TOO_SMALL);
    CHECK(warg_save(log, text, 1, &used) == WARG_TOO_SMALL && used > 100);
    CHECK(warg_version(text, 0, &used) == WARG_TOO_SMALL && used >= 5);
    CHECK(warg_chain(log, nothing, 0, bytes_of("yank"), 4, &link, 1, &used) == WARG_NONE);
}

/* Texts that are no UTF-8, or not of their form. */
static void texts(struct warg_log *log, const struct signer *alice) {
    const uint8_t *bad = bytes_of("\xff\xfe");
    const struct bytes *id = &alice->key_id;
    struct warg_link links[4];
    CHECK(warg_latest(log, bad, 2, text, sizeof text, &used, &release) == WARG_BAD_ARGUMENT);
    CHECK(BEGINS(text, used, "BadRequirement: "));
    CHECK(warg_latest(log, bytes_of("one"), 3, text, sizeof text, &used, &release) == WARG_BAD_ARGUMENT);
    CHECK(BEGINS(text, used, "BadRequirement: "));
    CHECK(warg_latest(log, bytes_of(">9"), 2, text, sizeof text, &used, &release) == WARG_NONE);
    CHECK(warg_release(log, bad, 2, text, sizeof text, &used, &release) == WARG_BAD_ARGUMENT);
    CHECK(warg_release(log, bytes_of("1"), 1, text, sizeof text, &used, &release) == WARG_BAD_ARGUMENT);
    CHECK(BEGINS(text, used, "BadVersion: "));
    CHECK(warg_release(log, bytes_of("9.0.0"), 5, text, sizeof text, &used, &release) == WARG_NONE);
    CHECK(warg_releases(log, SIZE_MAX, text, sizeof text, &used, &release) == WARG_NONE);
    CHECK(warg_holds(log, bad, 2, bytes_of("yank"), 4) == WARG_BAD_ARGUMENT);
    CHECK(warg_holds(log, id->at, id->len, bad, 2) == WARG_BAD_ARGUMENT);
    CHECK(warg_holds(log, id->at, id->len, bytes_of("commit"), 6) == WARG_BAD_ARGUMENT);
    CHECK(warg_holds(log, id->at, id->len, bytes_of("yank"), 4) == WARG_OK);
    CHECK(warg_holds(log, nothing, 0, bytes_of("yank"), 4) == WARG_NONE);
    CHECK(warg_permissions(log, bad, 2, text, sizeof text, &used) == WARG_BAD_ARGUMENT);
    CHECK(BEGINS(text, used, "NotUtf8: "));
    CHECK(warg_permissions(log, nothing, 0, text, sizeof text, &used) == WARG_NONE);
    CHECK(warg_key(log, bad, 2, text, sizeof text, &used) == WARG_BAD_ARGUMENT);
    CHECK(BEGINS(text, used, "NotUtf8: "));
    CHECK(warg_key(log, nothing, 0, text, sizeof text, &used) == WARG_NONE);
    CHECK(warg_chain(log, bad, 2, bytes_of("yank"), 4, links, 4, &used) == WARG_BAD_ARGUMENT);
    CHECK(warg_chain(log, id->at, id->len, nothing, 0, links, 4, &used) == WARG_BAD_ARGUMENT);
    CHECK(warg_id(7, nothing, 0, text, sizeof text, &used) == WARG_BAD_ARGUMENT);
    CHECK(BEGINS(text, used, "NoKind: "));
    CHECK(warg_id(WARG_PACKAGE, bad, 2, text, sizeof text, &used) == WARG_NO_ENVELOPE && used > 0);
    CHECK(warg_resume(log, 2, bytes_of("{}"), 2, text, sizeof text, &used) == WARG_BAD_ARGUMENT);
    CHECK(BEGINS(text, used, "NoKind: "));
    CHECK(warg_resume(log, WARG_PACKAGE, bad, 2, text, sizeof text, &used) == WARG_BAD_ARGUMENT && used > 0);
    CHECK(warg_resume(log, WARG_PACKAGE, bytes_of("[]"), 2, text, sizeof text, &used) == WARG_BAD_ARGUMENT);
    CHECK(BEGINS(text, used, "WrongType: "));
    CHECK(warg_resume(log, WARG_PACKAGE, bytes_of("[]"), 2, text, used - 1, &used) == WARG_BAD_ARGUMENT && !used);
}

/* The name of each status, and of none that is not one. */
static void names(void) {
    static const char *const wanted[] = {"Ok", "NotOpen", "OutOfMemory", "TooSmall", "NoEnvelope", "Refused", "None", "BadArgument", "UnknownAlgorithm"};
    for (uint32_t i = 0; i < sizeof wanted / sizeof *wanted; i++) {
        size_t len = strlen(wanted[i]);
        CHECK(warg_status_name(i, text, sizeof text, &used) == WARG_OK && used == len && BEGINS(text, used, wanted[i]));
        CHECK(warg_status_name(i, text, len - 1, &used) == WARG_TOO_SMALL && used == len);
    }
    CHECK(warg_status_name(9, text, sizeof text, &used) == WARG_NONE && !used);
    CHECK(warg_status_name(UINT32_MAX, text, sizeof text, &used) == WARG_NONE && !used);
}

/* What stands behind a text stays, and so does what a call gives besides where it gives nothing. */
static void untouched(struct warg_log *log) {
    struct warg_release was;
    memset(&release, 7, sizeof release);
    memcpy(&was, &release, sizeof was);
    memset(text, 9, sizeof text);
    CHECK(warg_latest(log, bytes_of(">=x"), 3, text, sizeof text, &used, &release) == WARG_BAD_ARGUMENT && used);
    for (size_t i = used; i < sizeof text; i++)
        CHECK(text[i] == 9);
    memset(text, 9, sizeof text);
    CHECK(warg_latest(log, bytes_of(">9"), 2, text, sizeof text, &used, &release) == WARG_NONE && !used && text[0] == 9);
    CHECK(!memcmp(&was, &release, sizeof was));
    CHECK(warg_version(text, sizeof text, &used) == WARG_OK && text[used] == 9);
}

/* Calls of the other kind, and of a log that was resumed. */
static void other_logs(struct warg_log *package, const struct signer *alice) {
    struct warg_log operators = operator_log(alice), resumed = {0};
    struct warg_kept kept;
    struct warg_link links[4];
    const struct bytes *id = &alice->key_id;
    uint32_t is_imported = 0;
    size_t length = 0;
    struct warg_head last = {0};
    uint8_t saved[8192] = {0};
    size_t saved_len = 0;
    CHECK(warg_latest(&operators, bytes_of("*"), 1, text, sizeof text, &used, &release) == WARG_BAD_ARGUMENT);
    CHECK(BEGINS(text, used, "WrongKind: "));
    CHECK(warg_release(&operators, bytes_of("1.0.0"), 5, text, sizeof text, &used, &release) == WARG_BAD_ARGUMENT);
    CHECK(BEGINS(text, used, "WrongKind: "));
    CHECK(warg_releases(&operators, 0, text, sizeof text, &used, &release) == WARG_BAD_ARGUMENT);
    CHECK(BEGINS(text, used, "WrongKind: "));
    CHECK(warg_namespace(package, bytes_of("own"), 3, text, sizeof text, &used, &is_imported) == WARG_BAD_ARGUMENT);
    CHECK(BEGINS(text, used, "WrongKind: "));
    CHECK(warg_namespace(&operators, bytes_of("own"), 3, text, sizeof text, &used, &is_imported) == WARG_OK);
    CHECK(is_imported == 0 && used == 0);
    CHECK(warg_namespace(&operators, bytes_of("other"), 5, text, sizeof text, &used, &is_imported) == WARG_OK);
    CHECK(is_imported == 1 && used == 20 && BEGINS(text, used, "registry.example.com"));
    CHECK(warg_namespace(&operators, bytes_of("none"), 4, text, sizeof text, &used, &is_imported) == WARG_NONE);
    CHECK(warg_namespace(&operators, bytes_of("\xff"), 1, text, sizeof text, &used, &is_imported) == WARG_BAD_ARGUMENT);
    CHECK(BEGINS(text, used, "NotUtf8: "));
    CHECK(warg_compare(package, &operators, &comparison) == WARG_BAD_ARGUMENT);
    CHECK(warg_save(package, saved, sizeof saved, &saved_len) == WARG_OK);
    CHECK(warg_resume(&resumed, WARG_PACKAGE, saved, saved_len, text, sizeof text, &used) == WARG_OK);
    CHECK(warg_compare(package, &resumed, &comparison) == WARG_BAD_ARGUMENT);
    CHECK(warg_compare(&resumed, package, &comparison) == WARG_BAD_ARGUMENT);
    CHECK(warg_length(&resumed, &length) == WARG_BAD_ARGUMENT);
    CHECK(warg_head_of(&resumed, &last) == WARG_OK && last.count == 0 && last.is_counted == 0 && last.seconds == 1700000002);
    CHECK(warg_record(&resumed, 0, text, sizeof text, &used, &kept) == WARG_BAD_ARGUMENT);
    CHECK(BEGINS(text, used, "Resumed: "));
    CHECK(warg_resume_counted(&resumed, WARG_PACKAGE, bytes_of("[]"), 2, 3, text, sizeof text, &used) == WARG_BAD_ARGUMENT);
    CHECK(BEGINS(text, used, "WrongType: "));
    CHECK(warg_resume_counted(&resumed, 2, saved, saved_len, 3, text, sizeof text, &used) == WARG_BAD_ARGUMENT);
    CHECK(BEGINS(text, used, "NoKind: "));
    CHECK(warg_head_of(&resumed, &last) == WARG_OK && last.count == 0 && last.is_counted == 0);
    CHECK(warg_resume_counted(&resumed, WARG_PACKAGE, saved, saved_len, 3, text, sizeof text, &used) == WARG_OK && !used);
    CHECK(warg_head_of(&resumed, &last) == WARG_OK && last.count == 3 && last.is_counted == 1 && last.seconds == 1700000002);
    CHECK(warg_length(&resumed, &length) == WARG_BAD_ARGUMENT);
    CHECK(warg_chain(&resumed, id->at, id->len, bytes_of("yank"), 4, links, 4, &used) == WARG_BAD_ARGUMENT);
    CHECK(warg_holds(&resumed, id->at, id->len, bytes_of("yank"), 4) == WARG_OK);
    CHECK(warg_record(package, 3, text, sizeof text, &used, &kept) == WARG_NONE);
    CHECK(warg_record(package, SIZE_MAX, text, sizeof text, &used, &kept) == WARG_NONE);
    warg_close(&operators);
    warg_close(&resumed);
}

int main(void) {
    struct signer alice = p256_signer(), bob = p256_signer();
    struct warg_log log = package_log(3, &alice, &bob);
    struct bytes first = {0}, next = {0}, none = {0}, before = {0}, after = {0};
    publish(&first, 0, &none, &alice, &bob);
    next_envelope(&next, &log, 3, &alice, &bob);
    CHECK(head_of(&log, &before) == WARG_OK);
    no_log(&first);
    lengths(&log, &next);
    small_buffers(&log, &next);
    texts(&log, &alice);
    other_logs(&log, &alice);
    names();
    untouched(&log);
    written_anew(&first);
    CHECK(head_of(&log, &after) == WARG_OK);
    CHECK(before.len == after.len && !memcmp(before.at, after.at, after.len));
    opened_again(&log, &first);
    warg_close(&log);
    bytes_free(&first);
    bytes_free(&next);
    bytes_free(&before);
    bytes_free(&after);
    p256_signer_free(&alice);
    p256_signer_free(&bob);
    puts("each wrong use has its status");
    return 0;
}
