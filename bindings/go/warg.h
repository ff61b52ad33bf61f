/* The logs of a package registry, checked by the proved library. docs/PROOFS.md says what is proved of each call.
 *
 * Link with `pkg-config --cflags --libs warg`, or with libwarg.a or libwarg.so of dist/.
 *
 *     struct warg_log log = {0};
 *     uint32_t status = warg_open(&log, WARG_PACKAGE);
 *     status = warg_append_signed(&log, envelope, envelope_len, text, sizeof text, &used);
 *     warg_close(&log);
 *
 * The library verifies ECDSA P-256 itself; any other scheme is the caller's: `warg_ask` judges all of a record but its signature and
 * says what has to be verified, and `warg_append` takes the caller's word for it, and the record with it.
 *
 *     struct warg_asked asked = {0};
 *     status = warg_ask(&log, envelope, envelope_len, bytes, sizeof bytes, &used, &asked);
 *     bool belongs = verify(bytes, &asked);
 *     status = warg_append(&log, envelope, envelope_len, bytes, used, &asked, belongs, text, sizeof text, &used);
 *
 * What the caller owes in every call. The library can't see it, and nothing is promised where it does not hold:
 *   - No pointer is null, also where it leads to no bytes (pass "" there).
 *   - Each pointer leads to as many bytes, or links, as its length says, all of them initialised, fewer than 2^63.
 *   - What a call writes to overlaps nothing else that is passed to it; so two logs of a call are two.
 *   - A `bool` is 0 or 1.
 *   - A `struct warg_log` is all 0 bytes, or as the last call left it. It is not copied to be used twice.
 *   - A log serves one call at a time. It may go to another thread, ordered by a lock, a thread's start or join, or a
 *     sequentially consistent atomic. Different logs may be used by different threads at once: there is no global state.
 *   - The same holds of a `struct warg_registry`, but that it stays on one thread.
 *
 * What every call keeps. It returns a status. At any status but WARG_OK all logs and registries stay as they were. Calls that only look also
 * leave them so at WARG_OK. All texts are UTF-8, with no zero byte behind them. WARG_OUT_OF_MEMORY is an answer of calls that take memory
 * alone, and only where they came to take some: `warg_length`, `warg_head_of`, `warg_compare`, `warg_registry_length`, `warg_version` and
 * `warg_status_name` never do.
 *
 * Calls that give bytes write them to the start of the caller's buffer, and to `used` how many they are. What stands behind them stays as it
 * was:
 *   - at WARG_OK, how many bytes were written;
 *   - at WARG_TOO_SMALL, how many there have to be room for; the buffer stays as it was;
 *   - at WARG_NO_ENVELOPE, WARG_REFUSED and WARG_BAD_ARGUMENT, the length of the error's text, which stands in the buffer: the error's name,
 *     a colon, a space, and a sentence; or 0 where the buffer had no room for it. Where there was no memory for the sentence of a
 *     WARG_NO_ENVELOPE or a WARG_REFUSED, the text is the name alone;
 *   - at any other status 0, and the buffer stays as it was. `warg_status_name` gives the name of each status.
 * What else a call gives (`asked`, `kept`, `release`, `is_imported`, `roots`, `head`) is written at WARG_OK and at WARG_TOO_SMALL, and `length`,
 * `place` and `comparison` at WARG_OK. At any other status it stays as it was. */
#ifndef WARG_H
#define WARG_H

#include <stdbool.h>
#include <stddef.h>
#include <stdint.h>

/* The version of this header, as a text and as its numbers. What is linked may be another one: `warg_version`
 * says that one's. */
#define WARG_VERSION "0.1.0"
#define WARG_VERSION_MAJOR 0
#define WARG_VERSION_MINOR 1
#define WARG_VERSION_PATCH 0

#ifdef __cplusplus
extern "C" {
#endif

/* What a call returns. */
enum warg_status {
    /* It was done. */
    WARG_OK = 0,
    /* The log is none: it was not opened, or it was closed. */
    WARG_NOT_OPEN = 1,
    /* There was no memory. The same call may be made again. */
    WARG_OUT_OF_MEMORY = 2,
    /* The caller's buffer is too small. `used` says how much is needed. */
    WARG_TOO_SMALL = 3,
    /* The bytes are no envelope of a record of the log's kind. */
    WARG_NO_ENVELOPE = 4,
    /* The record is unlawful; or the proof does not hold; or the signature does not belong. */
    WARG_REFUSED = 5,
    /* There is no such thing. */
    WARG_NONE = 6,
    /* An argument is not of its form, or the log is none that has this call: it is of the other kind, or it was resumed and
     * has no records. */
    WARG_BAD_ARGUMENT = 7,
    /* The key's algorithm is none that the library verifies. */
    WARG_UNKNOWN_ALGORITHM = 8
};

/* The kinds of logs. */
enum warg_kind {
    /* The log of a package: its releases. */
    WARG_PACKAGE = 0,
    /* The log of a registry's operators: its namespaces. */
    WARG_OPERATOR = 1
};

/* The trees of a registry, on which proofs are. */
enum warg_tree {
    /* The log of all records: proofs of inclusion and of consistency. */
    WARG_LOG_TREE = 0,
    /* The map of the heads of logs: proofs of presence and of absence. */
    WARG_MAP_TREE = 1
};

/* How two logs compare, by the contents of their records. */
enum warg_comparison_case {
    /* The contents are equal, record for record. */
    WARG_SAME = 0,
    /* The right log begins with all of the left one, and goes on at `left`, which is `right`. */
    WARG_LEFT_IS_PREFIX = 1,
    /* The left log begins with all of the right one, and goes on at `left`, which is `right`. */
    WARG_RIGHT_IS_PREFIX = 2,
    /* The logs fork: `left`, which is `right`, is the first place where both have a record and the contents differ. */
    WARG_FORK = 3,
    /* The heads are one and the contents are not: the record at the place `left` of the left log and that at `right` of the right one
     * differ, and have one id. */
    WARG_COLLISION = 4
};

/* How one checkpoint of a registry compares with an older one. */
enum warg_checkpoint_case {
    /* The lengths and both roots are equal. */
    WARG_CHECKPOINT_SAME = 0,
    /* The log is longer, and the proof shows that it begins with the older one's. */
    WARG_CHECKPOINT_GOES_ON = 1,
    /* The log is shorter than the older one's. */
    WARG_CHECKPOINT_GOES_BACK = 2,
    /* The lengths are equal and a root differs: no list of leaves has both. Two signatures show that the registry forked. */
    WARG_CHECKPOINT_FORK = 3,
    /* The log is longer, and the proof does not show that it begins with the older one's. */
    WARG_CHECKPOINT_NOT_SHOWN = 4
};

/* How the leaves compare that are shown at one place of a registry's log. */
enum warg_leaf_case {
    /* Both proofs hold, and the leaves are one. */
    WARG_LEAF_SAME = 0,
    /* Both proofs hold, and the leaves differ: neither log begins with the other one, or two strings collide. */
    WARG_LEAF_FORK = 1,
    /* One of the proofs does not hold. */
    WARG_LEAF_NOT_SHOWN = 2
};

/* How two answers about the head of one log compare that are shown under one root of a registry's map. */
enum warg_head_case {
    /* Both proofs hold, and the answers are one: one head, or none. */
    WARG_HEAD_SAME = 0,
    /* Both proofs hold, of two heads: two strings collide. */
    WARG_HEAD_TWO = 1,
    /* Both proofs hold, of a head and of none: two strings collide. */
    WARG_HEAD_ONE_AND_NONE = 2,
    /* One of the proofs does not hold. */
    WARG_HEAD_NOT_SHOWN = 3
};

/* How two checkpoints of a registry compare that the log of a newer one is shown to begin with. */
enum warg_beginning_case {
    /* Both proofs hold, and the lengths and both roots are equal. */
    WARG_BEGINNING_SAME = 0,
    /* Both proofs hold, the lengths and the logs' roots are equal, and the maps' roots differ: no list of leaves has both. Two signatures show
     * that the registry forked. */
    WARG_BEGINNING_FORK = 1,
    /* Both proofs hold, the lengths are equal, and the logs' roots differ: two strings collide. */
    WARG_BEGINNING_COLLISION = 2,
    /* Both proofs hold, and the lengths differ: nothing is said against the two. */
    WARG_BEGINNING_TWO_LENGTHS = 3,
    /* One of the proofs does not hold. */
    WARG_BEGINNING_NOT_SHOWN = 4
};

/* A log, or none: all bytes 0 is none. */
struct warg_log {
    void *at;
    bool is_open;
};

/* How many bytes of a question are the key's text, the message, and the signature's text. They stand one behind the other. */
struct warg_asked {
    size_t key_len;
    size_t message_len;
    size_t signature_len;
};

/* How many bytes of a kept record are its envelope, and the text of its id behind it. */
struct warg_kept {
    size_t envelope_len;
    size_t id_len;
};

/* The time of a log's last record, in seconds and nanoseconds since 1970, its version, and how many records the log has. */
struct warg_head {
    int64_t seconds;
    /* 0 where it is not known. */
    size_t count;
    uint32_t nanos;
    uint32_t version;
    /* 1 if `count` says how many records there are, 0 where that is not known: `warg_resume` was not told it, or a
     * `size_t` can't say it. */
    uint32_t is_counted;
};

/* A release. Its texts stand one behind the other: the version, the id of the record that released it, the id of the key that signed that
 * record, and then the content's digest; or, if it was yanked, the id of the key that signed the yank. Times are those of the records, in
 * seconds and nanoseconds since 1970; those of the yank are 0 where there is none. */
struct warg_release {
    size_t version_len;
    size_t record_id_len;
    size_t key_id_len;
    /* The length of the digest's text, or of the id of the key that yanked. */
    size_t state_len;
    int64_t seconds;
    int64_t yanked_seconds;
    uint32_t nanos;
    uint32_t yanked_nanos;
    /* 1 if the release was yanked, otherwise 0. */
    uint32_t is_yanked;
};

/* The place of an entry, counted from 0: of its record in the log, and of the entry in the record. */
struct warg_link {
    size_t record_index;
    size_t entry_index;
};

/* How two logs compare, and where. */
struct warg_comparison {
    /* One of `enum warg_comparison_case`. */
    uint32_t is;
    size_t left;
    size_t right;
};

/* A registry's log of leaves and its map, or none: all bytes 0 is none. */
struct warg_registry {
    void *at;
    bool is_open;
};

/* How many bytes are the text of the log's root, and the text of the map's behind it. */
struct warg_roots {
    size_t log_root_len;
    size_t map_root_len;
};

/* How many bytes are the text of the id of a log's last record, 0 where it has none, and the text of the proof behind
 * it. */
struct warg_log_head {
    size_t record_id_len;
    size_t proof_len;
};

/* A signed checkpoint. Its texts stand one behind the other: the root of the registry's log, the root of its map, the id of the key that is said
 * to have signed, and the signature. */
struct warg_signed_checkpoint {
    /* The length of the registry's log in leaves. */
    uint64_t log_length;
    /* The time in whole seconds since 1970. */
    uint64_t timestamp;
    size_t log_root_len;
    size_t map_root_len;
    size_t key_id_len;
    size_t signature_len;
};

/* Opening and closing. */

/* Begins a log of no records, of one of `enum warg_kind`. A log that was open is closed first.
 *   WARG_OUT_OF_MEMORY, WARG_BAD_ARGUMENT (no such kind): the log is as it was, open if it was open. */
uint32_t warg_open(struct warg_log *log, uint32_t kind);

/* Closes a log and gives its memory back: it is none then. A log that is none stays so; closing twice is harmless. */
void warg_close(struct warg_log *log);

/* Appending, by what the caller says of a signature, or by what the library verifies itself. */

/* Says what has to be verified before the record of an envelope can be appended. Changes nothing, but a log that has its records keeps a
 * copy of the envelope until the next append, which then need not read it again.
 *   WARG_OK: the record is lawful exactly if the signature that stands in the question belongs to the message under the key. The question
 *     is in `bytes`: the key's text, the message, the signature's text; `used` and `asked` say how much of it is what.
 *   WARG_TOO_SMALL: as WARG_OK, but there was no room for the question. `asked` is written too.
 *   WARG_NO_ENVELOPE: the bytes are no envelope. The error's text is in `bytes`.
 *   WARG_REFUSED: the record is unlawful, whatever its signature. The error's text is in `bytes`; an envelope's length and 512 more are
 *     room enough for it where key ids are short. */
uint32_t warg_ask(struct warg_log *log, const uint8_t *envelope, size_t envelope_len, uint8_t *bytes, size_t bytes_len,
                  size_t *used, struct warg_asked *asked);

/* Appends the record of an envelope, by the caller's word for its signature. `question` and `asked` are what `warg_ask` gave for it, and
 * `belongs` says whether the signature belongs to the message under the key.
 *   WARG_OK: the record is the log's last one now. Where the caller's yeses were right, a log that was opened has at any time just the
 *     records that were taken, in order, each lawful after those before it, and a resumed one goes on by just these.
 *   WARG_NO_ENVELOPE: as of `warg_ask`. The error's text is in `text`.
 *   WARG_REFUSED: the record is unlawful after those of the log; the error's text is in `text`. So is every record whose `belongs` is
 *     false, and one whose question is not the one that is passed (also where another record was appended in between, if that changes
 *     the key): they are refused as wrong signatures.
 *   WARG_BAD_ARGUMENT (BadQuestion): the bytes are no question: the lengths reach beyond its end, or the key or the signature can't be
 *     read. */
uint32_t warg_append(struct warg_log *log, const uint8_t *envelope, size_t envelope_len, const uint8_t *question,
                     size_t question_len, const struct warg_asked *asked, bool belongs, uint8_t *text, size_t text_len,
                     size_t *used);

/* Appends the record of an envelope, whose signature the library verifies itself: ECDSA on the curve P-256 with SHA-256, which keys and
 * signatures name `ecdsa-p256`. A key is a point of SEC 1, compressed or not, and a signature is the DER of RFC 3279. No question is asked
 * before; where one was, the envelope need not be read again.
 *   WARG_OK: the record is the log's last one now, and lawful, and its signature belongs to it under the key of its signer. A log that was
 *     opened and had this call alone has at any time just the records that were taken, in order, each lawful after those before it.
 *   WARG_NO_ENVELOPE: as of `warg_ask`. The error's text is in `text`.
 *   WARG_REFUSED: the record is unlawful after those of the log, or its signature does not belong. The error's text is in `text`.
 *   WARG_UNKNOWN_ALGORITHM: the record is lawful exactly if its signature belongs, and its key is of another algorithm. The log is as it
 *     was: `warg_ask` says what has to be verified, and `warg_append` appends by what the caller found. */
uint32_t warg_append_signed(struct warg_log *log, const uint8_t *envelope, size_t envelope_len, uint8_t *text, size_t text_len,
                            size_t *used);

/* Verifying a signature. */

/* Whether a signature belongs to a message under a key, by the texts of the key and of the signature, as they stand in questions:
 * `ecdsa-p256:` and base64. WARG_OK if it does, WARG_REFUSED if it does not. No log is needed.
 *   WARG_BAD_ARGUMENT: the key's text can't be read; or it is one of `ecdsa-p256`, and the signature's can't be read.
 *   WARG_UNKNOWN_ALGORITHM: the key's algorithm is not `ecdsa-p256`. The signature's text was not looked at. */
uint32_t warg_verify(const uint8_t *key, size_t key_len, const uint8_t *message, size_t message_len, const uint8_t *signature,
                     size_t signature_len);

/* The records of a log. */

/* The text of the id of the last record.
 *   WARG_NONE: there was no record yet. */
uint32_t warg_head(struct warg_log *log, uint8_t *text, size_t text_len, size_t *used);

/* The time and the version of the last record, and how many records there are, as far as that is known. Its id is told by
 * `warg_head`.
 *   WARG_NONE: there was no record yet. */
uint32_t warg_head_of(struct warg_log *log, struct warg_head *head);

/* How many records the log has.
 *   WARG_BAD_ARGUMENT: the log was resumed. */
uint32_t warg_length(struct warg_log *log, size_t *length);

/* The record at a place, counted from 0: its envelope, and the text of its id behind it. The envelope is written anew, so it may differ from
 * the bytes that were appended: it has the contents, the key id and the signature that came, and nothing else that stood there, such as fields
 * that no envelope has. Its record has the same id.
 *   WARG_NONE: the log has no record at this place.
 *   WARG_BAD_ARGUMENT (Resumed): the log was resumed. */
uint32_t warg_record(struct warg_log *log, size_t place, uint8_t *bytes, size_t bytes_len, size_t *used, struct warg_kept *kept);

/* The id of an envelope's record. */

/* The text of the id of an envelope's record, of one of `enum warg_kind`. No log is needed, and the record need not be lawful.
 *   WARG_NO_ENVELOPE: the error's text is in `text`.
 *   WARG_BAD_ARGUMENT (NoKind): no such kind. */
uint32_t warg_id(uint32_t kind, const uint8_t *envelope, size_t envelope_len, uint8_t *text, size_t text_len, size_t *used);

/* The releases of a package log. */

/* The release that is not yanked, meets the requirement (as ">=1.2, <2"), and has the greatest version.
 *   WARG_NONE: there is none.
 *   WARG_BAD_ARGUMENT: the text is no requirement (BadRequirement), or the log is one of operators (WrongKind). */
uint32_t warg_latest(struct warg_log *log, const uint8_t *requirement, size_t requirement_len, uint8_t *text, size_t text_len,
                     size_t *used, struct warg_release *release);

/* The release of a version, yanked or not.
 *   WARG_NONE: the version was not released.
 *   WARG_BAD_ARGUMENT: the text is no version (BadVersion), or the log is one of operators (WrongKind). */
uint32_t warg_release(struct warg_log *log, const uint8_t *version, size_t version_len, uint8_t *text, size_t text_len,
                      size_t *used, struct warg_release *release);

/* The release at a place, counted from 0, in the order in which they were released; those of a resumed log come first, by the bytes of their
 * versions.
 *   WARG_NONE: there are not so many releases.
 *   WARG_BAD_ARGUMENT (WrongKind): the log is one of operators. */
uint32_t warg_releases(struct warg_log *log, size_t place, uint8_t *text, size_t text_len, size_t *used,
                       struct warg_release *release);

/* The namespaces of an operator log. */

/* What a namespace is. `is_imported` is 0 where this registry defines it, and `text` is empty; it is 1 where its packages are those of another
 * registry, and `text` is that one's name.
 *   WARG_NONE: the log has no such namespace.
 *   WARG_BAD_ARGUMENT: the name is no UTF-8 (NotUtf8), or the log is one of a package (WrongKind). */
uint32_t warg_namespace(struct warg_log *log, const uint8_t *name, size_t name_len, uint8_t *text, size_t text_len, size_t *used,
                        uint32_t *is_imported);

/* Keys, and what they may do. A key id is the fingerprint of a key, and permissions are `release` and `yank` of package logs, and
 * `commit`, `defineNamespace` and `importNamespace` of operator logs. */

/* Whether a key id holds a permission: WARG_OK if it does, WARG_NONE if it does not.
 *   WARG_BAD_ARGUMENT: the key id is no UTF-8, or logs of this kind have no such permission. */
uint32_t warg_holds(struct warg_log *log, const uint8_t *key_id, size_t key_id_len, const uint8_t *permission,
                    size_t permission_len);

/* The permissions of a key id, with a space between two: no text where it holds none.
 *   WARG_NONE: the log does not know the key id.
 *   WARG_BAD_ARGUMENT (NotUtf8): the key id is no UTF-8. */
uint32_t warg_permissions(struct warg_log *log, const uint8_t *key_id, size_t key_id_len, uint8_t *text, size_t text_len,
                          size_t *used);

/* The text of the key of a key id.
 *   WARG_NONE: the log does not know the key.
 *   WARG_BAD_ARGUMENT (NotUtf8): the key id is no UTF-8. */
uint32_t warg_key(struct warg_log *log, const uint8_t *key_id, size_t key_id_len, uint8_t *text, size_t text_len, size_t *used);

/* By which entries keys came to hold permissions. */

/* By which entries a key id came to hold a permission, from the log's first entry on. `links_len` is how many links there is room for, and
 * `used` how many there are; at WARG_TOO_SMALL, how many there have to be room for.
 *   WARG_NONE: the key id does not hold the permission.
 *   WARG_BAD_ARGUMENT: as of `warg_holds`, or the log was resumed. */
uint32_t warg_chain(struct warg_log *log, const uint8_t *key_id, size_t key_id_len, const uint8_t *permission,
                    size_t permission_len, struct warg_link *links, size_t links_len, size_t *used);

/* Two logs. */

/* Compares the records of two logs. They are two: one log may not be passed twice.
 *   WARG_BAD_ARGUMENT: one is of a package and one of operators, or one was resumed. */
uint32_t warg_compare(struct warg_log *left, struct warg_log *right, struct warg_comparison *comparison);

/* Saving a state, and going on from one. */

/* The state of the log as a text of JSON: all that further records are judged by, and that is looked up, but no records.
 *   WARG_NONE: a time of the state lies before 1970, which its text can't say. */
uint32_t warg_save(struct warg_log *log, uint8_t *text, size_t text_len, size_t *used);

/* Goes on from a saved state of one of `enum warg_kind`. A log that was open is closed first. Of a resumed log nothing is known of its
 * records, those that are appended to it included: `warg_length`, `warg_record`, `warg_chain` and `warg_compare` are not for it. All else is as if its
 * records were there. Whether the text is what was saved is the caller's to keep.
 *   WARG_BAD_ARGUMENT: no such kind (NoKind), or the text is no saved state of this kind (NotJson, WrongType, Missing, BadText,
 *     TimeBeforeEpoch, TimeOutOfRange, Incoherent). The log is as it was. */
uint32_t warg_resume(struct warg_log *log, uint32_t kind, const uint8_t *saved, size_t saved_len, uint8_t *text, size_t text_len,
                     size_t *used);

/* The same of a log that had so many records when its state was saved, as `warg_head_of` then said: it says how many there are from here on,
 * each record that is appended included. Whether the number is right is the caller's to keep, as the text is.
 *   WARG_BAD_ARGUMENT: as of `warg_resume`. */
uint32_t warg_resume_counted(struct warg_log *log, uint32_t kind, const uint8_t *saved, size_t saved_len, size_t count,
                             uint8_t *text, size_t text_len, size_t *used);

/* The ids of logs by the names of their packages, and the leaves of a registry's log. */

/* The text of the id of a log, of one of `enum warg_kind`: of the package's of this name, or of the operators', which has no name (`name` is
 * empty then). No log is needed.
 *   WARG_BAD_ARGUMENT: no such kind (NoKind); or no log of the kind has such a name (BadName). */
uint32_t warg_log_id(uint32_t kind, const uint8_t *name, size_t name_len, uint8_t *text, size_t text_len, size_t *used);

/* The leaf that a record of a log has in a registry's log, by the texts of the ids of both: the bytes that are hashed.
 *   WARG_BAD_ARGUMENT: a text is none of an id; nothing is told of it. */
uint32_t warg_leaf(const uint8_t *log_id, size_t log_id_len, const uint8_t *record_id, size_t record_id_len, uint8_t *bytes,
                   size_t bytes_len, size_t *used);

/* What a registry proves of its log and its map. These are functions of their arguments alone. Roots are texts of hashes (`sha256:` and 64
 * digits of hex), ids are texts of ids, proofs are texts of base64.
 *   WARG_OK: the proof holds. What that is worth is said of each call: there, two strings collide if they differ and have one hash, and are
 *     hashed at one place on two ways to the root, the proof's and the log's or the map's own. No call knows whose root it is, nor whether
 *     a log of this root has this length: so a log's length and root have to be signed together, and the map's root with them.
 *   WARG_REFUSED: it does not hold.
 *   WARG_BAD_ARGUMENT: a text is not of its form. `warg_proof_fault` says what is wrong with a proof's.
 *   WARG_OUT_OF_MEMORY: nothing is said. The texts of the hashes are of their form. */

/* That the leaf of a log's record stands at a place of the registry's log, which has `length` leaves and this root.
 *   WARG_OK: every log of this length and root has the leaf at this place, or two strings collide. */
uint32_t warg_verify_inclusion(const uint8_t *log_id, size_t log_id_len, const uint8_t *record_id, size_t record_id_len,
                               uint64_t place, uint64_t length, const uint8_t *root, size_t root_len, const uint8_t *proof,
                               size_t proof_len);

/* That the registry's log of `new_length` leaves begins with the one of `old_length` leaves.
 *   WARG_OK: every log of the new length and root begins with one of the old length and root, or two strings collide. */
uint32_t warg_verify_consistency(uint64_t old_length, const uint8_t *old_root, size_t old_root_len, uint64_t new_length,
                                 const uint8_t *new_root, size_t new_root_len, const uint8_t *proof, size_t proof_len);

/* That the registry's map says that a log's last record is this one.
 *   WARG_OK: every map of this root says so, or two strings collide. */
uint32_t warg_verify_presence(const uint8_t *log_id, size_t log_id_len, const uint8_t *record_id, size_t record_id_len,
                              const uint8_t *root, size_t root_len, const uint8_t *proof, size_t proof_len);

/* That the registry's map says nothing of a log.
 *   WARG_OK: no map of this root says anything of the log, or two strings collide. */
uint32_t warg_verify_absence(const uint8_t *log_id, size_t log_id_len, const uint8_t *root, size_t root_len, const uint8_t *proof,
                             size_t proof_len);

/* What is wrong with the text of a proof. */

/* The name of what is wrong with the text of a proof on one of `enum warg_tree`, so that a caller can say it: TooLong, BadBase64, BadLength
 * or EmptySibling.
 *   WARG_NONE: nothing is wrong: it is the text of a proof, whatever that shows.
 *   WARG_BAD_ARGUMENT (NoTree): no such tree. */
uint32_t warg_proof_fault(uint32_t tree, const uint8_t *proof, size_t proof_len, uint8_t *text, size_t text_len, size_t *used);

/* Whether what a registry said twice goes together. These are functions of their arguments alone, as those of proofs are, and ask the registry
 * for nothing. Two clients tell a fork by them from what each was shown.
 *   WARG_OK: `comparison` says how the two compare.
 *   WARG_BAD_ARGUMENT: a text is not of its form. `warg_proof_fault` says what is wrong with a proof's.
 *   WARG_OUT_OF_MEMORY: nothing is said. The texts of the hashes before the first proof are of their form. */

/* Compares two checkpoints of a registry, by a proof of consistency as `warg_verify_consistency` takes it. It is looked at where the newer log
 * is longer, and may be "" elsewhere. Their times are not compared.
 *   WARG_OK: `comparison` is one of `enum warg_checkpoint_case`. */
uint32_t warg_compare_checkpoints(uint64_t old_length, const uint8_t *old_log_root, size_t old_log_root_len,
                                  const uint8_t *old_map_root, size_t old_map_root_len, uint64_t new_length,
                                  const uint8_t *new_log_root, size_t new_log_root_len, const uint8_t *new_map_root,
                                  size_t new_map_root_len, const uint8_t *proof, size_t proof_len, uint32_t *comparison);

/* Compares the leaves that two clients were shown at one place of a registry's log, each by a proof of inclusion under a checkpoint of its own, as
 * `warg_verify_inclusion` takes it. The lengths may differ.
 *   WARG_OK: `comparison` is one of `enum warg_leaf_case`. */
uint32_t warg_compare_leaves(uint64_t place, uint64_t old_length, const uint8_t *old_root, size_t old_root_len,
                             const uint8_t *old_log_id, size_t old_log_id_len, const uint8_t *old_record_id,
                             size_t old_record_id_len, const uint8_t *old_proof, size_t old_proof_len, uint64_t new_length,
                             const uint8_t *new_root, size_t new_root_len, const uint8_t *new_log_id, size_t new_log_id_len,
                             const uint8_t *new_record_id, size_t new_record_id_len, const uint8_t *new_proof,
                             size_t new_proof_len, uint32_t *comparison);

/* Whether what a registry showed twice under one root can both be so. These are functions of their arguments alone, as those of proofs are, and
 * ask the registry for nothing. Two clients tell a contradiction by them from what each was shown.
 *   WARG_OK: `comparison` says how the two compare. Where two strings collide, they differ and have one hash, and are hashed at one place on
 *     two ways to the root, those of the two proofs.
 *   WARG_BAD_ARGUMENT: a text is not of its form. `warg_proof_fault` says what is wrong with a proof's.
 *   WARG_OUT_OF_MEMORY: nothing is said. The texts before the first proof are of their form. */

/* Compares two answers about the head of one log under one root of a registry's map: the id of the record that is the log's last, by a proof as
 * `warg_verify_presence` takes it, or "" where the log is to have none, by a proof as `warg_verify_absence` takes it.
 *   WARG_OK: `comparison` is one of `enum warg_head_case`. */
uint32_t warg_compare_heads(const uint8_t *map_root, size_t map_root_len, const uint8_t *log_id, size_t log_id_len,
                            const uint8_t *one_record_id, size_t one_record_id_len, const uint8_t *one_proof,
                            size_t one_proof_len, const uint8_t *other_record_id, size_t other_record_id_len,
                            const uint8_t *other_proof, size_t other_proof_len, uint32_t *comparison);

/* Compares two checkpoints of a registry, each with a proof as `warg_verify_consistency` takes it that the log of one newer checkpoint, which has
 * `new_length` leaves and this root, begins with its own. Their times are not compared.
 *   WARG_OK: `comparison` is one of `enum warg_beginning_case`. */
uint32_t warg_compare_beginnings(uint64_t new_length, const uint8_t *new_root, size_t new_root_len, uint64_t one_length,
                                 const uint8_t *one_log_root, size_t one_log_root_len, const uint8_t *one_map_root,
                                 size_t one_map_root_len, const uint8_t *one_proof, size_t one_proof_len, uint64_t other_length,
                                 const uint8_t *other_log_root, size_t other_log_root_len, const uint8_t *other_map_root,
                                 size_t other_map_root_len, const uint8_t *other_proof, size_t other_proof_len,
                                 uint32_t *comparison);

/* The trees of a registry, for who keeps one: the log of all leaves, and the map of the heads of logs. Ids are texts
 * of ids, roots are texts of hashes (`sha256:` and 64 digits of hex). */

/* Begins a registry of no leaves. One that was open is closed first.
 *   WARG_OUT_OF_MEMORY: the registry is as it was, open if it was open. */
uint32_t warg_registry_open(struct warg_registry *registry);

/* Closes a registry and gives its memory back: it is none then. One that is none stays so; closing twice is harmless. */
void warg_registry_close(struct warg_registry *registry);

/* Puts the leaf of a record of a log last onto the log of the registry, and makes the record the head of its log in
 * the map. `place` is where the leaf stands, counted from 0. Whether the record may come next is for the log's own
 * handle to say.
 *   WARG_OUT_OF_MEMORY: both trees are as they were.
 *   WARG_BAD_ARGUMENT: a text is none of an id; nothing is told of it. */
uint32_t warg_registry_push(struct warg_registry *registry, const uint8_t *log_id, size_t log_id_len, const uint8_t *record_id,
                            size_t record_id_len, uint64_t *place);

/* How many leaves were pushed. */
uint32_t warg_registry_length(struct warg_registry *registry, uint64_t *length);

/* The texts of both roots, one behind the other: that of the log of all leaves, and that of the map of the heads. With
 * the length they are what a checkpoint says (`warg_checkpoint_message`). */
uint32_t warg_registry_roots(struct warg_registry *registry, uint8_t *text, size_t text_len, size_t *used,
                             struct warg_roots *roots);

/* Proofs under the trees of a registry, as texts of base64. Each is one that `warg_verify_inclusion`,
 * `warg_verify_consistency`, `warg_verify_presence` or `warg_verify_absence` takes under the roots and the length of
 * the moment. */

/* The proof that the leaf at a place is in the log of all leaves of the moment, as `warg_verify_inclusion` takes it.
 *   WARG_NONE: there is no leaf at this place. */
uint32_t warg_registry_inclusion(struct warg_registry *registry, uint64_t place, uint8_t *text, size_t text_len, size_t *used);

/* The proof that the log of all leaves of the moment begins with the one of its first `first_length` leaves, as
 * `warg_verify_consistency` takes it.
 *   WARG_NONE: there are not that many leaves. */
uint32_t warg_registry_consistency(struct warg_registry *registry, uint64_t first_length, uint8_t *text, size_t text_len,
                                   size_t *used);

/* The last record of a log among the leaves of the moment, and the proof of it: the text of the record's id, and
 * behind it the text of the proof, as `warg_verify_presence` takes it. Of a log that has no leaf there is no id, and
 * the proof is one that `warg_verify_absence` takes.
 *   WARG_BAD_ARGUMENT: the text is none of an id; nothing is told of it. */
uint32_t warg_registry_head(struct warg_registry *registry, const uint8_t *log_id, size_t log_id_len, uint8_t *text,
                            size_t text_len, size_t *used, struct warg_log_head *head);

/* Saving the leaves of a registry, and beginning with them. */

/* The leaves of a registry, for `warg_registry_resume`: 64 bytes for each, in the order in which they were pushed, the 32 of
 * its log's id and the 32 of its record's. So who keeps them may as well append 64 bytes for each leaf that is pushed. */
uint32_t warg_registry_save(struct warg_registry *registry, uint8_t *bytes, size_t bytes_len, size_t *used);

/* Begins a registry of the leaves that `warg_registry_save` gave, or of those of the first of them. One that was open is
 * closed first. All hashes are made anew: two for each leaf, and the map's for each log once, so that this costs less than
 * to push them.
 *   WARG_OUT_OF_MEMORY: the registry is as it was, open if it was open.
 *   WARG_BAD_ARGUMENT: the bytes are no multiple of 64; the registry is as it was. */
uint32_t warg_registry_resume(struct warg_registry *registry, const uint8_t *saved, size_t saved_len);

/* Signed checkpoints of a registry. What a checkpoint says is given by itself: the length of the registry's log in leaves, the texts of the
 * roots of its log and of its map, and the time in whole seconds since 1970. */

/* The message that the key of a registry signs of a checkpoint, as `warg_verify` takes it.
 *   WARG_BAD_ARGUMENT: the text of a root is none of a hash; nothing is told of it. */
uint32_t warg_checkpoint_message(uint64_t log_length, const uint8_t *log_root, size_t log_root_len, const uint8_t *map_root,
                                 size_t map_root_len, uint64_t timestamp, uint8_t *bytes, size_t bytes_len, size_t *used);

/* Whether a checkpoint is signed by a key that the log of a registry's operators lets sign: one that holds `commit`. `key_id` and `signature` are
 * the texts that stand beside the checkpoint. WARG_OK if it is.
 *   WARG_REFUSED: the log does not let the key sign, or the signature does not belong.
 *   WARG_BAD_ARGUMENT: the text of a root is none of a hash, the key id is no UTF-8, the signature's text can't be read, or the log is one of a
 *     package; nothing is told of it.
 *   WARG_OUT_OF_MEMORY: nothing is said; the roots are hashes, the log is one of operators, and the key id is UTF-8.
 *   WARG_UNKNOWN_ALGORITHM: the key that may sign is none of `ecdsa-p256`. Verify the message of `warg_checkpoint_message` yourself then. */
uint32_t warg_verify_checkpoint(struct warg_log *log, uint64_t log_length, const uint8_t *log_root, size_t log_root_len,
                                const uint8_t *map_root, size_t map_root_len, uint64_t timestamp, const uint8_t *key_id,
                                size_t key_id_len, const uint8_t *signature, size_t signature_len);

/* Signed checkpoints of a registry as texts of JSON, as a registry answers them: `contents` with `logRoot`, `logLength`, `mapRoot` and
 * `timestamp`, and beside it `keyId` and `signature`. */

/* The JSON text of a signed checkpoint. `key_id` and `signature` are the texts that stand beside the checkpoint; nothing is verified.
 *   WARG_BAD_ARGUMENT: the text of a root is none of a hash, the key id is no UTF-8, or the signature's text can't be read; nothing is told of it.
 *   WARG_OUT_OF_MEMORY: nothing is said; the roots are hashes, and the key id is UTF-8. */
uint32_t warg_checkpoint_text(uint64_t log_length, const uint8_t *log_root, size_t log_root_len, const uint8_t *map_root,
                              size_t map_root_len, uint64_t timestamp, const uint8_t *key_id, size_t key_id_len,
                              const uint8_t *signature, size_t signature_len, uint8_t *text, size_t text_len, size_t *used);

/* Reads the JSON text of a signed checkpoint. What else it has is passed over; nothing is verified. What was read may be given to
 * `warg_verify_checkpoint`, and a text that `warg_checkpoint_text` wrote is read as what it was written of.
 *   WARG_BAD_ARGUMENT: the text is no signed checkpoint (NotJson, WrongType, Missing, BadText). */
uint32_t warg_read_checkpoint(const uint8_t *json, size_t json_len, uint8_t *text, size_t text_len, size_t *used,
                              struct warg_signed_checkpoint *checkpoint);

/* The names of statuses. */

/* The name of one of `enum warg_status`: Ok, NotOpen, OutOfMemory, TooSmall, NoEnvelope, Refused, None, BadArgument or UnknownAlgorithm.
 *   WARG_NONE: the number is no status. */
uint32_t warg_status_name(uint32_t number, uint8_t *text, size_t text_len, size_t *used);

/* The library's version. */

/* The library's version, as "1.2.3". */
uint32_t warg_version(uint8_t *text, size_t text_len, size_t *used);

#ifdef __cplusplus
}
#endif
#endif
