/* How many descriptors are open in a process that receives some: no frame says whether it closes them again. */
#ifndef RECORDER_DESCRIPTORS_H
#define RECORDER_DESCRIPTORS_H
#include "frame.h"
#include "link.h"

/* The openings that have received some, as far as there is room for them. */
extern struct link descriptors_receivers;
void descriptors_take(const struct frame *frame);
/* Takes a frame that is written. The process of an opening is looked at when that has received its first descriptor,
 * and again, at most once a second, when a call of its own failed: it may have no room for one more. */
static inline void descriptors_frame(const struct frame *frame)
{
	if (frame->direction == DIRECTION_READ && (frame->entries || !link_is_alone(&descriptors_receivers)))
		descriptors_take(frame);
}
/* What ended is not looked at any more. */
void descriptors_process_ended(u32 device, u32 number);
/* Writes the first lines again, of openings that have not ended, for a later file. */
void descriptors_tell_again(void);
/* Looks at each of them once more, when the recording ends, */
void descriptors_look(void);
/* and says in the side list what it found, when all frames are written. */
void descriptors_tell(void);
#endif
