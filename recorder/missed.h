/* What is in no frame: the kernel counts it, and the side list tells it as it happens. */
#ifndef RECORDER_MISSED_H
#define RECORDER_MISSED_H
#include "common.h"

enum missed {
	MISSED_EVENTS, MISSED_NUMBERS, MISSED_32_BIT,
	MISSED_STACK_ROOM, MISSED_STACK_FAILED, MISSED_STACK_EMPTY,	/* stacks that a frame has not */
	MISSED_END
};

/* The recording begins: what was counted before does not matter. */
void missed_begin(void);
/* Writes a line for each count that has grown since the last look. Called after the ring was taken, and before the
 * frames in it are written: so the line comes before each frame that was recorded after something was missed. */
void missed_tell(void);
/* Writes again, added up, what frames from this number on may lack. */
void missed_tell_again(u64 number);
/* How many since the beginning. */
u64 missed_count(enum missed what);
#endif
