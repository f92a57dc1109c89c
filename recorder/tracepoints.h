/* The tracepoints at which the recorder's programs in the kernel run, and the fields that the programs read. One table
 * says both: needs.c compares it with the `format` files of tracefs, and kernel.c attaches the programs by it. Both
 * drivers have the same tracepoints with the same fields, in systems of events of their own. */
#ifndef RECORDER_TRACEPOINTS_H
#define RECORDER_TRACEPOINTS_H

/* The fields, where the programs read them. The command of an ioctl is a number_fields.number, too. */
struct ioctl_fields { unsigned long long common; unsigned int command, unused; unsigned long long argument; };
struct number_fields { unsigned long long common; unsigned int number; };
struct exec_fields { unsigned long long common; unsigned int path, id, old_id; };

#ifndef __bpf__
#include "common.h"

/* How many names a tracepoint or a field may have: kernels may call one thing differently. */
#define NAMES 2

struct field {
	const char *names[NAMES];
	u32 offset, size;
};

struct tracepoint {
	const char *program;		/* of record.bpf.c */
	const char *names[NAMES];
	struct field fields[2];
};

/* Those of a driver, and those of the scheduler. After the last one is one without a program. */
extern const struct tracepoint tracepoints_of_driver[], tracepoints_of_scheduler[];

/* By which name this kernel has the tracepoint, in a system of events; NULL if by none. */
const char *tracepoint_name(const struct tracepoint *tracepoint, const char *system);
/* Whether the system of events has these tracepoints, with these fields. Writes what is wrong with the first one that is
 * not so into `why`. */
int tracepoints_are_there(const char *system, const struct tracepoint *tracepoints, char *why, size_t room);
#endif
#endif
