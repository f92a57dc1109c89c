/* What --only asks of a process: what it is called, and whose it is. */
#ifndef RECORDER_CALLED_BPF_H
#define RECORDER_CALLED_BPF_H
#include "command.bpf.h"

/* Takes one more letter of the first word of the command line: a slash begins the name anew. */
STEP(take_letter)
{
	struct scratch *s = scratch();
	u64 from = i;
	if (!s || i >= COMMAND_BYTES)
		return 1;
	BOUND(from, 0xff);
	char letter = s->command.text[from];
	if (!letter)
		return 1;
	u64 to = s->letters++;
	if (letter == '/') {
		__builtin_memset(&s->called, 0, sizeof s->called);
		s->letters = 0;
	} else if (to < CALLED_BYTES) {
		BOUND(to, 0x3f);
		s->called.name[to] = letter;
	}
	return 0;
}

/* Whether the process has a name that is wanted: its first thread, or its program without folders. */
static __always_inline int has_wanted_name(struct scratch *s, struct task_struct *task)
{
	__builtin_memset(&s->called, 0, sizeof s->called);
	BPF_CORE_READ_INTO((char (*)[NAME_BYTES])s->called.name, task, group_leader, comm);
	if (bpf_map_lookup_elem(&wanted_names, &s->called))
		return 1;
	__builtin_memset(&s->called, 0, sizeof s->called);
	s->letters = 0;
	LOOP(COMMAND_BYTES, take_letter);
	return s->letters < CALLED_BYTES && bpf_map_lookup_elem(&wanted_names, &s->called);
}

/* Looks whether the opening of the caller's process is recorded. A process may get its name after it has opened the
 * device, so one that is not wanted is looked at again, at most once a second. */
static __noinline int look_whether_wanted(struct opening *o)
{
	struct scratch *s = scratch();
	struct task_struct *task = current_task();
	u64 time = bpf_ktime_get_ns();
	if (!s || !o || time < o->look_at)
		return 0;
	int is_first = !o->look_at;
	o->look_at = time + LOOK_AGAIN;
	read_command(&s->command, task);
	u32 user = s->command.user;
	if (bpf_map_lookup_elem(&wanted_users, &user) || has_wanted_name(s, task)) {
		o->recorded = WANTED;
		if (!is_first)
			o->born = 0;		/* its calls until now are in no frame */
		o->look_at = 0;			/* its command line is told at once */
	}
	return 0;
}
#endif
