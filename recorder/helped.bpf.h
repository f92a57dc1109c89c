/* What newer kernels do for the programs here, and older ones do not: loops, numbers that are given once, the caller's
 * task and its registers. The programs are compiled twice, and the loader takes those that the kernel can run
 * (kernel.c): with OLDER_KERNELS those for Linux 5.10 up to 5.16, on arm64 up to 5.17. All that differs is here. */
#ifndef RECORDER_HELPED_BPF_H
#define RECORDER_HELPED_BPF_H
#include "kernel.bpf.h"
#include "messages.h"

/* STEP(name) begins the function of a loop's turn `i`, which returns 1 to end the loop, and LOOP runs at most so many
 * turns. A loop of more turns than MANY takes MANY_STEPS(name) after the function, and LOOP_MANY.
 *
 * NEXT(number), NEXT(thread) and NEXT(opening) give the next number of its kind, each one once on all processors, and
 * LAST(number) the one that was given last. IS_GIVEN says whether there was one to give. */
#ifndef OLDER_KERNELS

#define STEP(name) static long name(u32 i, void *unused)
#define LOOP(most, name) bpf_loop(most, name, 0, 0)
#define MANY_STEPS(name)
#define LOOP_MANY(most, name) LOOP(most, name)

#define NEXT(kind) (__sync_fetch_and_add(&last_##kind, 1) + 1)
#define LAST(kind) last_##kind
#define IS_GIVEN(number) 1

static __always_inline struct task_struct *current_task(void)
{
	return bpf_get_current_task_btf();
}

/* With which the task came into the kernel. */
static __always_inline struct pt_regs *registers_of(struct task_struct *task)
{
	return (void *)bpf_task_pt_regs(task);
}

#else

/* The verifier of these kernels follows each turn of a loop, up to 8192 jumps. A function that is not static it checks
 * once, and not once for each call. A weak one gets its number from the compiler even if it does not look at it. */
#define MANY 128
#define STEP(name) __weak __noinline int name(u32 i)
#define LOOP(most, name) \
	do { \
		_Pragma("clang loop unroll(disable)") \
		for (u64 turn = 0; turn < (most); turn++) \
			if (name(turn)) \
				break; \
	} while (0)
#define MANY_STEPS(name) \
	__weak __noinline int many_of_##name(u32 i) \
	{ \
		_Pragma("clang loop unroll(disable)") \
		for (u64 turn = 0; turn < MANY; turn++) \
			if (name(turn)) \
				return 1; \
		return 0; \
	}
#define LOOP_MANY(most, name) LOOP((most) / MANY, many_of_##name)

/* Their atomic additions do not say what was there before. A reservation in a ring does: it takes the next
 * TICKET_BYTES, under the ring's lock. So its place is a number that is given once, and in one order for all processors. Nothing is
 * written there, and the loader only makes room (kernel.c). */
#define NEXT(kind) next_ticket(&tickets_of_##kind, sizeof_tickets_of_##kind)
#define LAST(kind) (bpf_ringbuf_query(&tickets_of_##kind, BPF_RB_PROD_POS) / TICKET_BYTES)
#define IS_GIVEN(number) ((number) != 0)

/* How many numbers may be given before the loader has made room. It makes none while it meets the openings that exist
 * already (MOST_OPENINGS). */
#define sizeof_tickets_of_number (1u << 24)
#define sizeof_tickets_of_opening (1u << 22)
#define sizeof_tickets_of_thread sizeof_tickets_of_opening
#define tickets_of_thread tickets_of_opening

struct { __uint(type, BPF_MAP_TYPE_RINGBUF); __uint(max_entries, sizeof_tickets_of_number); }
	tickets_of_number SEC(".maps");
struct { __uint(type, BPF_MAP_TYPE_RINGBUF); __uint(max_entries, sizeof_tickets_of_opening); }
	tickets_of_opening SEC(".maps");

/* As it is in the kernel: each of these members begins a page. */
struct bpf_ringbuf {
	unsigned long producer_pos;
	char data[1];
} FROM_BTF;

#define PAGE_BYTES (bpf_core_field_offset(struct bpf_ringbuf, data) - \
		    bpf_core_field_offset(struct bpf_ringbuf, producer_pos))

/* 0 if the loader has not made room for long. The head of a reservation says on which page of the ring it is. */
static __always_inline u64 next_ticket(void *tickets, u64 bytes)
{
	u32 page = 0;
	u64 *place = bpf_ringbuf_reserve(tickets, TICKET_BYTES - BPF_RINGBUF_HDR_SZ, 0);
	if (!place)
		return 0;
	*(volatile u64 *)place = (u64)place;	/* from here on the verifier takes it for a number */
	u64 head = *(volatile u64 *)place - BPF_RINGBUF_HDR_SZ;
	u64 end = bpf_ringbuf_query(tickets, BPF_RB_PROD_POS);
	bpf_probe_read_kernel(&page, sizeof page, (void *)(head + sizeof(u32)));
	bpf_ringbuf_discard(place, BPF_RB_NO_WAKEUP);
	u64 at = page * PAGE_BYTES + (head & (PAGE_BYTES - 1)) - bpf_core_field_offset(struct bpf_ringbuf, data);
	/* The ring has turned so often that this is the last such place before its end: until the discard no later
	 * reservation could have it. */
	return (end - ((end - at) & (bytes - 1))) / TICKET_BYTES + 1;
}

static __always_inline struct task_struct *current_task(void)
{
	return (struct task_struct *)bpf_get_current_task();
}

struct vm_struct {
	unsigned long size;
} FROM_BTF;

struct task_struct___stack {
	void *stack;
	struct vm_struct *stack_vm_area;
} FROM_BTF;

struct pt_regs___of_kernel { } FROM_BTF;

/* They are at the end of the task's stack, after which there is a page that is not mapped. A kernel whose stacks are not
 * mapped has 16 KiB for each, but for one with KASAN. */
static __always_inline struct pt_regs *registers_of(struct task_struct *of)
{
	struct task_struct___stack *task = (void *)of;
	u64 bytes = 0, stack = (u64)BPF_CORE_READ(task, stack);
	if (bpf_core_field_exists(task->stack_vm_area))
		bytes = BPF_CORE_READ(task, stack_vm_area, size);
	bytes = bytes ? bytes - PAGE_BYTES : 16384;
	return (void *)(stack + bytes - bpf_core_type_size(struct pt_regs___of_kernel));
}
#endif
#endif
