/* ECDSA over the curve P-256 with SHA-256: verified by the library, or by OpenSSL's libcrypto, which makes the keys and signs.
 *
 * A key's text is `ecdsa-p256:` and the base64 of a SEC1 point, compressed (33 bytes) or not (65 bytes); it is written compressed. A signature's
 * text is `ecdsa-p256:` and the base64 of a DER ECDSA-Sig-Value. */
#ifndef P256_H
#define P256_H

#include "bytes.h"
#include <openssl/evp.h>
#include <warg.h>

/* Whether the signature of a question belongs to its message under its key, by the library. Texts that can't be read belong to nothing. */
bool p256_verify(const uint8_t *question, const struct warg_asked *asked);

/* The same by libcrypto. What is read as a key and as a signature is what the library reads, and libcrypto is asked of nothing else. */
bool p256_verify_by_openssl(const uint8_t *question, const struct warg_asked *asked);

/* A new private key, to be freed by EVP_PKEY_free. */
EVP_PKEY *p256_new_key(void);
/* The text of its public key. */
void p256_add_public_key(struct bytes *text, EVP_PKEY *key);
/* The text of a signature of the message. */
void p256_add_signature(struct bytes *text, EVP_PKEY *key, const struct bytes *message);

#endif
