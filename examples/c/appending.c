#include "appending.h"

#include <stdlib.h>
#include <string.h>

/* Makes room for so many bytes, all of them initialised. */
static void reserve(struct bytes *bytes, size_t room) {
    if (bytes->room >= room)
        return;
    uint8_t *at = calloc(room, 1);
    if (!at)
        give_up("out of memory");
    bytes_free(bytes);
    *bytes = (struct bytes){.at = at, .room = room};
}

uint32_t ask(struct warg_log *log, const struct bytes *envelope, struct bytes *bytes, struct warg_asked *asked) {
    reserve(bytes, envelope->len + 1024);
    uint32_t status = warg_ask(log, envelope->at, envelope->len, bytes->at, bytes->room, &bytes->len, asked);
    if (status == WARG_TOO_SMALL) {
        reserve(bytes, bytes->len);
        status = warg_ask(log, envelope->at, envelope->len, bytes->at, bytes->room, &bytes->len, asked);
    }
    return status;
}

uint32_t append(struct warg_log *log, const struct bytes *envelope, struct bytes *text) {
    reserve(text, envelope->len + 1024);
    return warg_append_signed(log, envelope->at, envelope->len, text->at, text->room, &text->len);
}

uint32_t append_by(struct warg_log *log, const struct bytes *envelope, verify_question *verify, struct bytes *text) {
    struct warg_asked asked = {0};
    struct bytes question = {0};
    uint32_t status = ask(log, envelope, &question, &asked);
    reserve(text, envelope->len + 1024);
    if (status == WARG_OK) {
        bool belongs = verify(question.at, &asked);
        status = warg_append(log, envelope->at, envelope->len, question.at, question.len, &asked, belongs, text->at,
                             text->room, &text->len);
    } else {
        text->len = 0;
        bytes_add(text, question.at, question.len);
    }
    bytes_free(&question);
    return status;
}

uint32_t head_of(struct warg_log *log, struct bytes *text) {
    reserve(text, 128);
    uint32_t status = warg_head(log, text->at, text->room, &text->len);
    return status == WARG_NONE ? WARG_OK : status;
}

uint32_t latest_of(struct warg_log *log, const char *requirement, struct bytes *text, struct warg_release *release) {
    const uint8_t *at = (const uint8_t *)requirement;
    size_t len = strlen(requirement);
    reserve(text, 1024);
    uint32_t status = warg_latest(log, at, len, text->at, text->room, &text->len, release);
    if (status == WARG_TOO_SMALL) {
        reserve(text, text->len);
        status = warg_latest(log, at, len, text->at, text->room, &text->len, release);
    }
    return status;
}

const char *status_name(uint32_t status) {
    static const char *const names[] = {"ok",      "not open", "out of memory", "too small",        "no envelope",
                                        "refused", "none",     "bad argument",  "unknown algorithm"};
    return status < sizeof names / sizeof *names ? names[status] : "unknown";
}
