/* --live: once a second, what goes on, in lines that docs/RECORD.md explains. They go to standard output; or, for a
 * program that draws them, to the descriptor that RECORD_LIVE names, each after a byte that no other line begins with. */
#ifndef RECORDER_LIVE_H
#define RECORDER_LIVE_H
#include "frame.h"
#include "options.h"

#define LIVE_MARK '\x1e'

/* From now on it is counted what frames bring. Without this the other functions do nothing. */
void live_begin(const struct options *options);
extern int live_is_on;
void live_take(const struct frame *frame);
/* Takes the records of a frame that is written, after open_calls_frame(). */
static inline void live_frame(const struct frame *frame)
{
	if (live_is_on)
		live_take(frame);
}
/* Writes the lines, if a second has passed. It is called each time that the ring was looked at. */
void live_look(void);
#endif
