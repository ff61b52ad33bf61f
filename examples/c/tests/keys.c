/* What is read as a key and as a signature of ECDSA P-256, by the library and by libcrypto behind the same reader: the example of RFC 6979, A.2.5, with
 * SHA-256 and the message `sample`. */
#include "../p256.h"
#include "check.h"

#include <openssl/err.h>

#define COMPRESSED "A2D+1LolWp0xyWHrdMY1bWjASbiSO2H6bOZpYi5g8p+2"
#define UNCOMPRESSED "BGD+1LolWp0xyWHrdMY1bWjASbiSO2H6bOZpYi5g8p+2eQP+EAi4vJmkGunpVii8ZPLxsgwtfp9Rd6PClNRGIpk="
#define SIGNATURE "MEYCIQDv1IsqrLao/RFA3ZzUXoHWnSyHe1aq+ZHDTQ6oTq83FgIhAPfLHJQtZXxB1DbHobbin2Xz6QDbua/0Bk3Eqy+EOs2o"
/* The other value of s. */
#define LOW_SIGNATURE "MEUCIQDv1IsqrLao/RFA3ZzUXoHWnSyHe1aq+ZHDTQ6oTq83FgIgCDTjatKag78ryTheSR1gmcj9+dHtZ6p+pfUfk3goV6k="

static const char *const wrong_points[] = {
    /* With the other parity, a hybrid form, off the curve. */
    "AmD+1LolWp0xyWHrdMY1bWjASbiSO2H6bOZpYi5g8p+2",
    "B2D+1LolWp0xyWHrdMY1bWjASbiSO2H6bOZpYi5g8p+2eQP+EAi4vJmkGunpVii8ZPLxsgwtfp9Rd6PClNRGIpk=",
    "BGD+1LolWp0xyWHrdMY1bWjASbiSO2H6bOZpYi5g8p+2eQP+EAi4vJmkGunpVii8ZPLxsgwtfp9Rd6PClNRGIpo=",
    /* Of 64 bytes and of 66, and each form with the other's first byte. */
    "BGD+1LolWp0xyWHrdMY1bWjASbiSO2H6bOZpYi5g8p+2eQP+EAi4vJmkGunpVii8ZPLxsgwtfp9Rd6PClNRGIg==",
    "BGD+1LolWp0xyWHrdMY1bWjASbiSO2H6bOZpYi5g8p+2eQP+EAi4vJmkGunpVii8ZPLxsgwtfp9Rd6PClNRGIpkA",
    "A2D+1LolWp0xyWHrdMY1bWjASbiSO2H6bOZpYi5g8p+2eQP+EAi4vJmkGunpVii8ZPLxsgwtfp9Rd6PClNRGIpk=",
    "BGD+1LolWp0xyWHrdMY1bWjASbiSO2H6bOZpYi5g8p+2",
    /* At infinity, of no bytes, and no base64. */
    "AA==",
    "",
    "!",
    /* Compressed, of a number that is no coordinate: none there is on the curve, and the prime itself. */
    "AgAAAAAAAAAAAAAAAAAAAAAAAAAAAAAAAAAAAAAAAAAB",
    "Av////8AAAABAAAAAAAAAAAAAAAA////////////////",
    /* In base64 with spaces around it, without its padding, and with bits behind the last byte. */
    " A2D+1LolWp0xyWHrdMY1bWjASbiSO2H6bOZpYi5g8p+2",
    "A2D+1LolWp0xyWHrdMY1bWjASbiSO2H6bOZpYi5g8p+2\n",
    "BGD+1LolWp0xyWHrdMY1bWjASbiSO2H6bOZpYi5g8p+2eQP+EAi4vJmkGunpVii8ZPLxsgwtfp9Rd6PClNRGIpk",
    "BGD+1LolWp0xyWHrdMY1bWjASbiSO2H6bOZpYi5g8p+2eQP+EAi4vJmkGunpVii8ZPLxsgwtfp9Rd6PClNRGIpl=",
};

static const char *const wrong_signatures[] = {
    /* With a byte behind it, with one too few, with a length in two bytes, with a zero before a number. */
    "MEYCIQDv1IsqrLao/RFA3ZzUXoHWnSyHe1aq+ZHDTQ6oTq83FgIhAPfLHJQtZXxB1DbHobbin2Xz6QDbua/0Bk3Eqy+EOs2oAA==",
    "MEYCIQDv1IsqrLao/RFA3ZzUXoHWnSyHe1aq+ZHDTQ6oTq83FgIhAPfLHJQtZXxB1DbHobbin2Xz6QDbua/0Bk3Eqy+EOs0=",
    "MIFGAiEA79SLKqy2qP0RQN2c1F6B1p0sh3tWqvmRw00OqE6vNxYCIQD3yxyULWV8QdQ2x6G24p9l8+kA27mv9AZNxKsvhDrNqA==",
    "MEcCIgAA79SLKqy2qP0RQN2c1F6B1p0sh3tWqvmRw00OqE6vNxYCIQD3yxyULWV8QdQ2x6G24p9l8+kA27mv9AZNxKsvhDrNqA==",
    /* Of no bytes, and no base64. */
    "",
    "!",
    /* Of the numbers 0 and 0, 1 and the order, and below zero. */
    "MAYCAQACAQA=",
    "MCYCAQECIQD/////AAAAAP//////////vOb6racXnoTzucrC/GMlUQ==",
    "MAYCAYECAYE=",
    /* With a sequence in a sequence, a length that is not said, and a number that reaches beyond the end. */
    "MAgwBgIBAQIBAQ==",
    "MIACAQECAQEAAA==",
    "MAYCAQECfwE=",
    "MAYCfwECAQE=",
};

/* Whether the signature belongs to the message under the key, by their texts. */
static bool belong(const char *algorithm, const char *point, const char *message, const char *signature) {
    struct bytes question = {0};
    struct warg_asked asked = {0};
    bytes_add_text(&question, algorithm);
    bytes_add_text(&question, point);
    asked.key_len = question.len;
    bytes_add_text(&question, message);
    asked.message_len = question.len - asked.key_len;
    bytes_add_text(&question, "ecdsa-p256:");
    bytes_add_text(&question, signature);
    asked.signature_len = question.len - asked.key_len - asked.message_len;
    bool belongs = p256_verify(question.at, &asked);
    CHECK(p256_verify_by_openssl(question.at, &asked) == belongs);
    CHECK(!ERR_peek_error());
    bytes_free(&question);
    return belongs;
}

int main(void) {
    static const char *const points[] = {COMPRESSED, UNCOMPRESSED};
    size_t refused = 0;
    for (size_t i = 0; i < sizeof points / sizeof *points; i++) {
        CHECK(belong("ecdsa-p256:", points[i], "sample", SIGNATURE));
        CHECK(belong("ecdsa-p256:", points[i], "sample", LOW_SIGNATURE));
        CHECK(!belong("ecdsa-p256:", points[i], "simple", SIGNATURE));
        CHECK(!belong("ecdsa-p256:", points[i], "", SIGNATURE));
        CHECK(!belong("ecdsa-p384:", points[i], "sample", SIGNATURE));
        CHECK(!belong("", points[i], "sample", SIGNATURE));
        for (size_t j = 0; j < sizeof wrong_signatures / sizeof *wrong_signatures; j++, refused++)
            CHECK(!belong("ecdsa-p256:", points[i], "sample", wrong_signatures[j]));
    }
    for (size_t i = 0; i < sizeof wrong_points / sizeof *wrong_points; i++, refused++)
        CHECK(!belong("ecdsa-p256:", wrong_points[i], "sample", SIGNATURE));
    printf("both forms of a point read, and %zu texts refused\n", refused);
    return 0;
}
