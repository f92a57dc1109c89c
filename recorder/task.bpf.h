/* How a program reads the fields of the caller's task, and its registers. Newer kernels let a program look there by
 * itself, which takes a tenth of what a helper takes. The verifier then takes the places of fields from the BTF of the
 * kernel that runs: so a program that is to be verified with the BTF of another kernel is compiled with READS_BY_HELPER
 * (checks/recorder/compiled.sh).
 *
 * READ(task, files, fdt) is task->files->fdt, where `task` is current_task(), and READ_FROM(place) is what is at a place
 * of registers_of(task). is_its_name says whether two words are the name of the task, and else makes them so. */
#ifndef RECORDER_TASK_BPF_H
#define RECORDER_TASK_BPF_H
#include "helped.bpf.h"

#if !defined OLDER_KERNELS && !defined READS_BY_HELPER

#define READ(task, ...) ___arrow(task, __VA_ARGS__)
#define READ_FROM(place) (*(const volatile u64 *)(place))

static __always_inline int is_its_name(struct task_struct *task, u64 *words)
{
	const u64 *name = (const u64 *)&task->comm;
	u64 first = name[0], second = name[1];
	if (first == words[0] && second == words[1])
		return 1;
	words[0] = first;
	words[1] = second;
	return 0;
}

#else

#define READ(task, ...) BPF_CORE_READ(task, __VA_ARGS__)
#define READ_FROM(place) \
	({ \
		u64 at_place = 0; \
		bpf_probe_read_kernel(&at_place, sizeof at_place, place); \
		at_place; \
	})

/* A helper has to be asked for the name anyway. */
static __always_inline int is_its_name(struct task_struct *task, u64 *words)
{
	return 0;
}

#endif
#endif
