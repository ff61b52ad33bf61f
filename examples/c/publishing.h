/* Publishes packages whose records are signed by new keys of P-256. */
#ifndef PUBLISHING_H
#define PUBLISHING_H

#include "records.h"
#include <warg.h>

/* A signer with a new key of P-256; to be freed. */
struct signer p256_signer(void);
void p256_signer_free(struct signer *signer);

/* The envelope of the record at a place of a log, whose head's text is `prev`: alice begins the log and lets bob release, and bob then releases a version a
 * record. */
void publish(struct bytes *envelope, size_t place, const struct bytes *prev, const struct signer *alice, const struct signer *bob);

#endif
