/* The beginning of a side list. */
#ifndef RECORDER_BEGIN_H
#define RECORDER_BEGIN_H
#include "common.h"

/* Writes the line that says that the recording has begun. `payloads` is how they are recorded, and `narrowed` the field
 * that says which part of the system alone is. */
void begin_tell(const char *payloads, const char *narrowed);
/* With --files each file has a side list. It begins with the same line, if the recording has begun, and says what was
 * met before the frame of this number. These first lines may be many. So they are written a slice at a time, and what
 * else is added to the side list waits until they are there. */
void begin_tell_again(u64 number);
/* Writes the next slice of them. Returns 1 if they are all there; then side_let_go is due. */
int begin_tell_on(void);
/* From now on this writes the last ones of them. */
void begin_tell_also(void (*tell)(u64 number));
#endif
