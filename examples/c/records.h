/* Writes records and the envelopes that carry them, in the bytes that docs/FORMATS.md gives. Nothing is judged here: a log does that when the
 * envelope is appended. */
#ifndef RECORDS_H
#define RECORDS_H

#include "bytes.h"

/* Who signs: the text of the public key, the text of its id, and what gives the text of a signature of a message. */
struct signer {
    struct bytes public_key;
    struct bytes key_id;
    void (*sign)(struct bytes *text, void *key, const struct bytes *message);
    void *key;
};

/* The text of a SHA-256 digest, as it stands in records. */
void add_sha256_text(struct bytes *text, const void *at, size_t len);

/* Entries of either kind. Permissions are numbers: of a package 1 to release, 2 to yank; of operators 1 to commit, 2 to define
 * namespaces, 3 to import them. */
void add_init(struct bytes *entries, const struct bytes *public_key);
void add_grant(struct bytes *entries, const struct bytes *public_key, const char *permissions);
void add_revoke(struct bytes *entries, const struct bytes *key_id, const char *permissions);

/* Entries of a package's record. */
void add_release(struct bytes *entries, const char *version, const char *content);
void add_yank(struct bytes *entries, const char *version);

/* An entry of an operator's record: a namespace that is defined, or imported from the registry, where that is a name. */
void add_namespace(struct bytes *entries, const char *name, const char *registry);

/* A record's bytes; `prev` is the text of the id of the record before it, of no bytes for the first. Its version is 1. */
void add_record(struct bytes *contents, const struct bytes *prev, uint64_t seconds, const struct bytes *entries);

/* The envelope of a package's record, or of an operator's, signed. */
void add_envelope(struct bytes *envelope, const struct bytes *contents, const struct signer *signer);
void add_operator_envelope(struct bytes *envelope, const struct bytes *contents, const struct signer *signer);

#endif
