/* Takes what is secret out of a payload: all that is neither an object nor an interface token is replaced by bytes of a
 * keyed hash of it. Equal payloads stay equal, and so a send still fits its delivery. */
#ifndef RECORDER_REDACT_H
#define RECORDER_REDACT_H
#include "frame.h"

/* Makes the key of the recording, which is kept nowhere. `all` is 0 if only payloads with TF_CLEAR_BUF are redacted. */
void redact_begin(int all);
/* Whether the payload of the entry, of a record of this frame, is to be redacted. */
int redact_wants(const struct frame *frame, const struct entry *entry);
/* Redacts it. */
void redact(const struct frame *frame, struct entry *entry);
/* Forgets the key. */
void redact_end(void);
#endif
