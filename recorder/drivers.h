/* The Binder drivers of the kernel: the one in C, and the one in Rust. A kernel may have both. */
#ifndef RECORDER_DRIVERS_H
#define RECORDER_DRIVERS_H
#include "common.h"

enum driver { DRIVER_IN_C, DRIVER_IN_RUST, DRIVERS };

#define FUNCTION_BYTES 512	/* the kernel has no longer name */

/* Whether the kernel has the driver now, and its calls are to be recorded. */
int driver_is_recorded(enum driver driver);
/* From now on its calls are not. */
void driver_leave_out(enum driver driver);
/* In what it is written. */
const char *driver_language(enum driver driver);
/* The system of its tracepoints: their folder in `events` of a tracefs. */
const char *driver_system(enum driver driver);
/* Writes the name, in kallsyms, of the function that opens a device ("open"), or that releases an opening ("release"),
 * into `name`, which has FUNCTION_BYTES. Returns 0 if there is none, or if the kernel lets nobody probe it. */
int driver_function(enum driver driver, const char *what, char *name);
#endif
