/* What a recording needs of the system. What is missing is told by lack.h. */
#ifndef RECORDER_NEEDS_H
#define RECORDER_NEEDS_H
#include "common.h"
#include "messages.h"

extern const char need_driver_words[];

/* `most` is how many bytes the files of a flight recorder can take; 0 if there is no end of them. */
void need_space(const char *out, u64 most);
void need_capabilities(void);
void need_kernel(void);
int kernel_is_before(u32 major, u32 minor);
/* Whether it takes the programs for older kernels: it has no bpf_loop, or on arm64 no atomic addition that says what was
 * there before. */
int kernel_is_older(void);
void need_no_lockdown(void);
/* Whether the driver is there. */
int need_driver(void);
/* Whether the events of the kernel can be read. */
int need_tracefs(void);
/* The tracepoints can be attached to, and have the fields that record.bpf.c reads. */
void need_tracepoints(void);
/* No other program gets the processor while one of the recorder's programs runs. */
void need_no_preemption(enum preemption preemption);
void need_process(u32 process);
/* The number of the Binder device, as the kernel keeps it. */
u32 need_device(const char *name);
#endif
