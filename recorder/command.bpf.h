/* What a process is called beyond the 15 bytes of its name: its command line. It is read from the memory of the caller,
 * as /proc/PID/cmdline would be, but a program here waits for no memory, and so for nobody. What it can't read the loader
 * reads (command.c): it is away, for example swapped out, or on a processor of arm64 that does not itself note which
 * pages are used, the process has not touched it since the fork. */
#ifndef RECORDER_COMMAND_BPF_H
#define RECORDER_COMMAND_BPF_H
#include "copy.bpf.h"

#define LOOK_AGAIN 1000000000u	/* nanoseconds */

/* A sum by which one command line is told from another. */
static __always_inline u64 sum_of(const struct command *c)
{
	u64 sum = 0xcbf29ce484222325ull ^ c->user;
	for (u32 i = 0; i < COMMAND_BYTES / sizeof sum; i++)
		sum = (sum ^ ((const u64 *)c->text)[i]) * 0x100000001b3ull;
	return sum;
}

/* Returns 0 if it could be read. */
static __always_inline long read_command(struct command *c, struct task_struct *task)
{
	u64 from = BPF_CORE_READ(task, mm, arg_start), bytes = BPF_CORE_READ(task, mm, arg_end) - from;
	__builtin_memset(c->text, 0, sizeof c->text);
	if (bytes > COMMAND_BYTES)
		bytes = COMMAND_BYTES;
	BOUND(bytes, 0x1ff);
	c->user = BPF_CORE_READ(task, cred, euid.val);
	long failed = bytes ? read_memory(c->text, bytes, from) : 0;
	c->bytes = failed ? 0 : bytes;
	return failed;
}

/* Reports the command line and the user of the caller, the process that opened the device, if they are others than it
 * reported. A command line that was read before and is away now, for example swapped out, counts as the same. */
static __noinline int tell_command(struct opening *o, u64 time, u64 memory)
{
	struct scratch *s = scratch();
	struct task_struct *task = current_task();
	if (!s || !o)
		return 0;
	struct command *c = &s->command;
	int is_away = read_command(c, task) != 0, is_first = !o->has_command || memory != o->looked_in;
	u64 sum = sum_of(c);
	if (is_away ? is_first : !o->has_command || sum != o->command) {
		c->head.type = MESSAGE_COMMAND;
		c->head.direction = 0;
		c->head.number = LAST(number);
		c->head.time = time;
		c->head.opening = o->id;
		c->head.thread = 0;
		if (bpf_ringbuf_output(&ring, c, sizeof *c, QUIETLY))
			return 0;		/* no room: the next call tries again */
		o->has_command = 1;
		o->command = sum;
	}
	o->look_at = time + LOOK_AGAIN;
	o->looked_in = memory;
	return 0;
}

/* Looks at the command line at the first call, and then at most once a second, or after exec, or when the first thread
 * has another name. `memory` is the caller's mm. */
static __always_inline void look_at_command(struct opening *o, u64 memory, u64 time)
{
	if (time >= o->look_at || memory != o->looked_in)
		tell_command(o, time, memory);
}
#endif
