/* The stacks of calls in the side list: each is told once, with the mapped files that its addresses are in. */
#ifndef RECORDER_STACKS_H
#define RECORDER_STACKS_H
#include "common.h"
#include "messages.h"

/* From now on stacks come. Without this the other functions do nothing. */
void stacks_begin(void);
/* Takes a stack. Returns its number, the same one for the same stack of a process; 0 if there is none. */
u32 stacks_hear(const struct stack *stack);
/* Writes the line that says which stack the call of a frame has. */
void stacks_tell_call(u64 time, u64 number, u32 stack);
/* A side list begins, in which nothing is told yet. */
void stacks_tell_again(void);
/* Takes what was read of mapped files since the last look. */
void stacks_look(void);
/* The recording has ended: waits for a moment for what is still being read of mapped files. */
void stacks_end(void);
/* How many calls have no line, as their stack was not kept until their frame was written. */
u64 stacks_forgotten(void);
/* Of how many processes it was not read which files they map. */
u64 stacks_unmapped(void);
#endif
