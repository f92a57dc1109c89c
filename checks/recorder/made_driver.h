/* A driver that is made up, in place of the recorder's kernel.c, and of what the recorder looks for in a system. Who plays
 * it has ring_drain() and kernel_meet_openings() of its own, and may have others of the functions. It is linked with
 * --wrap=open. */
#ifndef MADE_DRIVER_H
#define MADE_DRIVER_H
#include "common.h"

extern u64 made_last;		/* the number that was taken last */
extern int made_is_stopped;	/* whether the recording has ended */
/* What is done when it ends, and the driver's log of failed transactions, if it has one: by default nothing, and none. */
void made_stop(void);
int made_log(void);
#endif
