/* Appends what the library verifies, or asks, verifies and appends. */
#ifndef APPENDING_H
#define APPENDING_H

#include "bytes.h"
#include <warg.h>

/* Whether the signature of a question belongs to its message under its key. */
typedef bool verify_question(const uint8_t *question, const struct warg_asked *asked);

/* What has to be verified before the record of an envelope can be appended; `bytes` are the question, or the error's text. */
uint32_t ask(struct warg_log *log, const struct bytes *envelope, struct bytes *bytes, struct warg_asked *asked);

/* Appends the record of an envelope if its signature belongs, which the library verifies. At WARG_NO_ENVELOPE and WARG_REFUSED `text` is the error's
 * text. */
uint32_t append(struct warg_log *log, const struct bytes *envelope, struct bytes *text);

/* The same if its signature belongs as `verify` says, which may be of any scheme. */
uint32_t append_by(struct warg_log *log, const struct bytes *envelope, verify_question *verify, struct bytes *text);

/* The text of the id of the last record, of no bytes before any. */
uint32_t head_of(struct warg_log *log, struct bytes *text);

/* The release that `warg_latest` finds for a requirement, with room for its texts, whatever their length. */
uint32_t latest_of(struct warg_log *log, const char *requirement, struct bytes *text, struct warg_release *release);

/* The name of a status. */
const char *status_name(uint32_t status);

#endif
