/* Clocks other than CLOCK_MONOTONIC, by which all times of the side list are. That one stands still while the system
 * sleeps, and the others do not. */
#ifndef RECORDER_CLOCKS_H
#define RECORDER_CLOCKS_H
#include "common.h"
#include <time.h>

/* One moment on three clocks. */
struct moment {
	u64 time;			/* CLOCK_MONOTONIC */
	struct timespec wall, boot;
};

struct moment clocks_read(void);
/* Writes a line of what the clocks show if the system has slept since they were read last. */
void clocks_look(void);
void clocks_tell(void);			/* writes the line */
void clocks_tell_again(void);		/* writes the last such line again, if there is one */
#endif
