/* Logs that several tests use. */
#ifndef LOGS_H
#define LOGS_H

#include "../appending.h"
#include "../publishing.h"

/* A package log of so many records by alice and bob, as `publish` makes them. */
struct warg_log package_log(size_t records, const struct signer *alice, const struct signer *bob);

/* An operator log of a record by alice, which begins it, defines the namespace `own` and imports the namespace `other`. */
struct warg_log operator_log(const struct signer *alice);
/* The envelope of that record. */
void operator_envelope(struct bytes *envelope, const struct signer *alice);

/* A signer of a scheme that the library does not know, and what verifies it; to be freed. */
struct signer word_signer(void);
void word_signer_free(struct signer *signer);
bool verify_word(const uint8_t *question, const struct warg_asked *asked);

/* The envelope that goes on from a log. */
void next_envelope(struct bytes *envelope, struct warg_log *log, size_t place, const struct signer *alice, const struct signer *bob);

#endif
