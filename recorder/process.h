/* What the system shows of a process. */
#ifndef RECORDER_PROCESS_H
#define RECORDER_PROCESS_H
#include "common.h"

/* Whether the process with this id is the one that began at this time, in nanoseconds of CLOCK_BOOTTIME. */
int process_is(u32 process, u64 start);
/* Reads the first bytes of /proc/PID/NAME, at most `room`. Returns how many it read; 0 if the process is another one. It
 * may have to wait for the process. */
u64 process_read(u32 process, u64 start, const char *name, char *text, u64 room);
#endif
