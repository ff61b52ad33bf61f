/* Publishes a package: `publish COUNT` prints the envelopes of so many records, a line each in hex. They are signed by new keys of P-256, and checked
 * before they are printed. */
#include "appending.h"
#include "p256.h"
#include "publishing.h"

#include <stdlib.h>

int main(int argc, char **argv) {
    if (argc != 2)
        give_up("usage: publish COUNT");
    struct warg_log log = {0};
    struct bytes head = {0}, envelope = {0}, text = {0};
    struct signer alice = p256_signer(), bob = p256_signer();
    uint32_t status = warg_open(&log, WARG_PACKAGE);
    char *end = argv[1];
    size_t count = strtoul(argv[1], &end, 10);
    if (end == argv[1] || *end)
        give_up("COUNT is no number");
    for (size_t place = 0; status == WARG_OK && place < count; place++) {
        status = head_of(&log, &head);
        if (status == WARG_OK) {
            publish(&envelope, place, &head, &alice, &bob);
            status = append(&log, &envelope, &text);
        }
        if (status == WARG_OK)
            bytes_print_hex(&envelope, stdout);
    }
    if (status != WARG_OK)
        give_up(status_name(status));
    end_output();
    warg_close(&log);
    bytes_free(&head);
    bytes_free(&envelope);
    bytes_free(&text);
    p256_signer_free(&alice);
    p256_signer_free(&bob);
    return 0;
}
