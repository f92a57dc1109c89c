/* Memory for what comes and goes with every frame. What is given back is kept for the next that wants as much, so that
 * a frame costs neither a call of malloc nor new pages of the kernel. */
#ifndef RECORDER_POOL_H
#define RECORDER_POOL_H
#include "common.h"

/* Returns memory of at least so many bytes, whatever they are, or ends the program with status 1. */
void *pool_take(u64 bytes);
/* Gives back what was taken for so many bytes; NULL is nothing. */
void pool_give(void *memory, u64 bytes);
/* How many bytes it takes to have so many. */
u64 pool_room(u64 bytes);
#endif
