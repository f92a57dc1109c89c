/* The recorder's program in the kernel: how it is loaded, started and stopped, and what it says outside the ring. */
#ifndef RECORDER_KERNEL_H
#define RECORDER_KERNEL_H
#include "messages.h"
#include "options.h"
#include "ring.h"

/* Loads it, or ends with a line that says what is missing. Nothing is recorded yet. */
void kernel_load(const struct options *options, struct ring *ring);
/* Looks up the openings that exist already. */
void kernel_meet_openings(void);
void kernel_start(void);
/* Ends the recording with the last number that has been taken by now, and returns it. No more numbers are taken, but
 * for some by programs that have begun. What the driver still does with writes that have a number is reported. */
u64 kernel_stop(void);
/* From now on that is not reported either. */
void kernel_detach(void);
/* Makes room for more numbers, of which older kernels give only so many. */
void kernel_make_room(void);
/* The last number that was taken, or the one with which the recording has ended. */
u64 kernel_last_number(void);
/* The messages of all numbers up to this one are in the ring, or had no room there. */
u64 kernel_bound(void);
u64 kernel_calls_32_bit(void);
/* How many calls took no number, because a table was full or the opening was not found. */
u64 kernel_calls_without_number(void);
/* The processes with the most openings, the one with the most first. Returns how many it found, at most `most`. */
u32 kernel_holders(struct share *holders, u32 most);
/* How many events a program did not see, because another one ran on the same CPU. */
u64 kernel_runs_missed(void);
/* How many stacks had no room in the ring, could not be taken, or had no address. */
u64 kernel_stacks_without_room(void);
u64 kernel_stacks_failed(void);
u64 kernel_stacks_empty(void);
void kernel_unload(void);
#endif
