/* Whether a frame may be written: the one place where the loader says what docs/ENVELOPE.md says of a frame. */
#ifndef RECORDER_GRAMMAR_H
#define RECORDER_GRAMMAR_H
#include "frame.h"

/* Whether the commands of the frame, all its entries and all its notes are of one another. Nothing of the frame is taken
 * for granted but its lengths: another thread of the caller can change a write between the copy of its commands and the
 * driver, which then begins, and names, records that are not in the copy. */
int grammar_allows(const struct frame *frame);
#endif
