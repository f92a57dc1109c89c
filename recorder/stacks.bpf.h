/* Takes the stack of a call that writes something that a finding can be about. The driver works on the write within the
 * call, so the stack is that of the entry. */
#ifndef RECORDER_STACKS_BPF_H
#define RECORDER_STACKS_BPF_H
#include "copy.bpf.h"

const volatile u32 takes_stacks = 0;
u64 stacks_without_room = 0, stacks_failed = 0, stacks_empty = 0;

/* The mask in take_stack lets the verifier see no more than this bound. */
struct stack_scratch {
	struct stack stack;
	u64 beyond[MOST_OF_STACK];
};

/* One for each CPU if stacks are taken. */
struct {
	__uint(type, BPF_MAP_TYPE_ARRAY);
	__uint(max_entries, 1);
	__type(key, u32);
	__type(value, struct stack_scratch);
} stack_scratches SEC(".maps");

#define BIT_OF(command) (1u << _IOC_NR(command))
#define BITS_WITH_STACK \
	(BIT_OF(BC_TRANSACTION) | BIT_OF(BC_TRANSACTION_SG) | BIT_OF(BC_REPLY) | BIT_OF(BC_REPLY_SG) | \
	 BIT_OF(BC_FREE_BUFFER) | BIT_OF(BC_INCREFS) | BIT_OF(BC_ACQUIRE) | BIT_OF(BC_REQUEST_DEATH_NOTIFICATION) | \
	 BIT_OF(BC_CLEAR_DEATH_NOTIFICATION))

/* Whether the command that the driver begins is the first one of its write for which the stack is taken. */
static __always_inline int wants_stack(const struct thread *t, u32 word)
{
	u32 number = word & 0xff;
	return t->write_number && !t->write_told && t->stack_of != (u32)t->write_number && number < 32 &&
	       (BITS_WITH_STACK >> number & 1);
}

/* The kernel follows the frame pointers, and on arm64 takes out the bits that authenticate a return address. */
static __noinline int take_stack(void *context, struct thread *t)
{
	struct task_struct *task = current_task();
	u32 cpu = bpf_get_smp_processor_id();
	struct stack_scratch *s = bpf_map_lookup_elem(&stack_scratches, &cpu);
	if (!s || !t)
		return 0;
	t->stack_of = t->write_number;
	long bytes = bpf_get_stack(context, s->stack.addresses, sizeof s->stack.addresses, BPF_F_USER_STACK);
	if (bytes < 0) {
		__sync_fetch_and_add(&stacks_failed, 1);
		return 0;
	}
	if (bytes == 0) {
		__sync_fetch_and_add(&stacks_empty, 1);
		return 0;
	}
	struct message *h = &s->stack.head;
	h->type = MESSAGE_STACK;
	h->direction = DIRECTION_WRITE;
	h->number = t->write_number;
	h->time = bpf_ktime_get_ns();
	h->opening = t->opening;
	h->thread = t->id;
	s->stack.memory = (u64)BPF_CORE_READ(task, mm);
	s->stack.start = BPF_CORE_READ(task, group_leader, start_boottime);
	s->stack.process = bpf_get_current_pid_tgid() >> 32;
	s->stack.count = bytes / sizeof(u64);
	u64 length = bytes;
	BOUND(length, 0x3ff);
	length += __builtin_offsetof(struct stack, addresses);
	if (!take_room(t, length) || bpf_ringbuf_output(&ring, s, length, QUIETLY))
		__sync_fetch_and_add(&stacks_without_room, 1);
	return 0;
}
#endif
