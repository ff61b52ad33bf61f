/* Audits a log whose records are signed by ECDSA P-256: `audit package|operator`, an envelope a line in hex on standard
 * input. Prints `ok`, the number of records and the last one's id, and the latest release, with status 0; or, with
 * status 1, `refused`, the place of the first record that is refused, and why; or `empty`, since a download that failed
 * leaves no record. */
#include "appending.h"

#include <string.h>

static int tell(struct warg_log *log, bool is_package) {
    struct bytes head = {0}, text = {0};
    size_t length = 0;
    struct warg_release release = {0};
    uint32_t status = head_of(log, &head);
    if (status == WARG_OK)
        status = warg_length(log, &length);
    if (status != WARG_OK)
        give_up(status_name(status));
    printf("ok %zu %.*s\n", length, head.len ? (int)head.len : 4, head.len ? (const char *)head.at : "none");
    bytes_free(&head);
    status = is_package ? latest_of(log, "*", &text, &release) : WARG_NONE;
    if (status == WARG_OK)
        printf("latest %.*s\n", (int)release.version_len, (const char *)text.at);
    else if (status != WARG_NONE)
        give_up(status_name(status));
    bytes_free(&text);
    return 0;
}

int main(int argc, char **argv) {
    bool is_package = argc == 2 && !strcmp(argv[1], "package");
    if (argc != 2 || (!is_package && strcmp(argv[1], "operator")))
        give_up("usage: audit package|operator");
    struct warg_log log = {0};
    struct bytes envelope = {0}, text = {0};
    uint32_t status = warg_open(&log, is_package ? WARG_PACKAGE : WARG_OPERATOR);
    size_t place = 0;
    while (status == WARG_OK && bytes_read_hex(&envelope, stdin)) {
        if (!envelope.len)
            bytes_add_text(&envelope, "");
        status = append(&log, &envelope, &text);
        place += status == WARG_OK;
    }
    int ended = 1;
    if (status == WARG_OK && !place) {
        puts("empty");
    } else if (status == WARG_OK) {
        ended = tell(&log, is_package);
    } else if (status == WARG_NO_ENVELOPE || status == WARG_REFUSED) {
        printf("refused %zu ", place);
        bytes_print_text(&text, stdout);
        putchar('\n');
    } else if (status == WARG_UNKNOWN_ALGORITHM) {
        printf("refused %zu UnknownAlgorithm: the library verifies keys of ecdsa-p256 alone\n", place);
    } else {
        give_up(status_name(status));
    }
    end_output();
    warg_close(&log);
    bytes_free(&envelope);
    bytes_free(&text);
    return ended;
}
