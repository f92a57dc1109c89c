/* What --check says of a system that can be recorded. */
#ifndef RECORDER_READY_H
#define RECORDER_READY_H
#include <stdio.h>

/* Writes a line: the kernel, and each Binder driver with the devices that are there. */
void ready_tell(FILE *file);
#endif
