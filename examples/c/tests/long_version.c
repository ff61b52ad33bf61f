/* Prints a log of one record, in hex, which releases a version of 9,006 bytes: no buffer of a usual size has room for it. */
#include "logs.h"

#include <string.h>

int main(void) {
    char version[9006 + 1] = "1.0.0+";
    memset(version + 6, 'a', 9000);
    struct signer alice = p256_signer();
    struct bytes entries = {0}, contents = {0}, envelope = {0}, none = {0};
    add_init(&entries, &alice.public_key);
    add_release(&entries, version, "content");
    add_record(&contents, &none, 1700000000, &entries);
    add_envelope(&envelope, &contents, &alice);
    bytes_print_hex(&envelope, stdout);
    end_output();
    bytes_free(&entries);
    bytes_free(&contents);
    bytes_free(&envelope);
    p256_signer_free(&alice);
    return 0;
}
