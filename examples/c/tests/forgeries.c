/* A log of 50 records with keys of P-256. Before each is taken it is forged: by another key, with another message, with another signature, and by the answer
 * to another question; and once it is taken, its answer is used again. Each forgery is refused, whoever verifies, and leaves the log as it was. */
#include "../appending.h"
#include "../p256.h"
#include "../publishing.h"
#include "check.h"

enum { RECORDS = 50 };

static struct warg_log the_log;

/* Appends, by each who verifies, which is refused with an error of this name, and leaves the head as it was. */
static void refuse(const struct bytes *envelope, const char *name) {
    verify_question *const verifying[] = {p256_verify, p256_verify_by_openssl};
    struct bytes text = {0}, before = {0}, after = {0};
    CHECK(head_of(&the_log, &before) == WARG_OK);
    CHECK(append(&the_log, envelope, &text) == WARG_REFUSED);
    CHECK(BEGINS(text.at, text.len, name));
    for (size_t i = 0; i < sizeof verifying / sizeof *verifying; i++) {
        CHECK(append_by(&the_log, envelope, verifying[i], &text) == WARG_REFUSED);
        CHECK(BEGINS(text.at, text.len, name));
    }
    CHECK(head_of(&the_log, &after) == WARG_OK);
    CHECK(before.len == after.len && !memcmp(before.at, after.at, after.len));
    bytes_free(&text);
    bytes_free(&before);
    bytes_free(&after);
}

/* The answer yes to a question, for an envelope that asks another one, or that can't be the next: it is refused with an error of this name. */
static void refuse_answer(const struct bytes *envelope, const struct bytes *question, const struct warg_asked *asked,
                          const char *name) {
    uint8_t text[1024] = {0};
    size_t used = 0;
    struct bytes before = {0}, after = {0};
    CHECK(head_of(&the_log, &before) == WARG_OK);
    CHECK(warg_append(&the_log, envelope->at, envelope->len, question->at, question->len, asked, true, text, sizeof text,
                      &used) == WARG_REFUSED);
    CHECK(BEGINS(text, used, name));
    CHECK(head_of(&the_log, &after) == WARG_OK);
    CHECK(before.len == after.len && !memcmp(before.at, after.at, after.len));
    bytes_free(&before);
    bytes_free(&after);
}

/* Changes a digit of the second text of a kind: of bob's key in the first record, and of a release's digest, behind that of the record before it, in others. What
 * is signed is another message then. */
static void change_message(struct bytes *envelope, size_t place) {
    const char *kind = place ? "sha256:" : "ecdsa-p256:";
    int found = 0;
    for (size_t at = 0; at + 32 < envelope->len; at++) {
        if (!memcmp(envelope->at + at, kind, strlen(kind)) && ++found == 2) {
            uint8_t *digit = envelope->at + at + strlen(kind) + 9;
            *digit = *digit == '1' ? '2' : '1';
            return;
        }
    }
    CHECK(!"a text to change");
}

/* Changes a byte near the end of the signature, which is the envelope's last field. */
static void change_signature(struct bytes *envelope) {
    uint8_t *digit = envelope->at + envelope->len - 8;
    *digit = *digit == 'A' ? 'B' : 'A';
}

static void copy(struct bytes *to, const struct bytes *from) {
    to->len = 0;
    bytes_add(to, from->at, from->len);
}

static void forge(size_t place, const struct bytes *envelope, const struct bytes *head, const struct signer *alice,
                  const struct signer *bob) {
    struct bytes forged = {0}, question = {0};
    struct warg_asked asked = {0};
    struct signer mallory = p256_signer();
    /* In the name of the signer, by another key. */
    struct signer alice_by_mallory = *alice, bob_by_mallory = *bob;
    alice_by_mallory.key = bob_by_mallory.key = mallory.key;
    publish(&forged, place, head, &alice_by_mallory, &bob_by_mallory);
    refuse(&forged, "SignatureError: ");
    /* The answer to the question of the true record, for this one. */
    CHECK(ask(&the_log, envelope, &question, &asked) == WARG_OK);
    CHECK(p256_verify(question.at, &asked) && p256_verify_by_openssl(question.at, &asked));
    refuse_answer(&forged, &question, &asked, "SignatureError: ");
    copy(&forged, envelope);
    change_message(&forged, place);
    refuse(&forged, "SignatureError: ");
    copy(&forged, envelope);
    change_signature(&forged);
    refuse(&forged, "SignatureError: ");
    p256_signer_free(&mallory);
    bytes_free(&forged);
    bytes_free(&question);
}

int main(void) {
    struct bytes head = {0}, envelope = {0}, question = {0}, text = {0};
    struct warg_asked asked = {0};
    struct signer alice = p256_signer(), bob = p256_signer();
    CHECK(warg_open(&the_log, WARG_PACKAGE) == WARG_OK);
    for (size_t place = 0; place < RECORDS; place++) {
        CHECK(head_of(&the_log, &head) == WARG_OK);
        publish(&envelope, place, &head, &alice, &bob);
        forge(place, &envelope, &head, &alice, &bob);
        CHECK(ask(&the_log, &envelope, &question, &asked) == WARG_OK);
        CHECK(append(&the_log, &envelope, &text) == WARG_OK);
        refuse_answer(&envelope, &question, &asked, place ? "RecordHashDoesNotMatch: " : "NoPreviousHashAfterInit: ");
    }
    size_t length = 0;
    CHECK(warg_length(&the_log, &length) == WARG_OK && length == RECORDS);
    warg_close(&the_log);
    bytes_free(&head);
    bytes_free(&envelope);
    bytes_free(&question);
    bytes_free(&text);
    p256_signer_free(&alice);
    p256_signer_free(&bob);
    puts("50 records taken, each forged five times and refused");
    return 0;
}
