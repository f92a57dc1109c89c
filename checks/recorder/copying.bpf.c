/* The recorder's programs in the kernel, with others that run parts of them without a driver. See copying. */
#include "record.bpf.c"

/* Where the caller has what is copied, and how long the last run took. */
u64 commands_from = 0, returns_from = 0, returns_bytes = 0, took = 0;
u64 bytes_looked_at = 0;
u32 first_word = 0, reason_of_loss = 0, attachments = 0;

static __always_inline struct thread *caller(void)
{
	u32 id = bpf_get_current_pid_tgid();
	struct scratch *s = scratch();
	if (s && !bpf_map_lookup_elem(&threads, &id)) {
		s->new_thread.id = 1;
		bpf_map_update_elem(&threads, &id, &s->new_thread, BPF_NOEXIST);
	}
	return bpf_map_lookup_elem(&threads, &id);
}

/* The caller, in a call that begins. */
static __always_inline struct thread *measured_call(void)
{
	struct thread *t = caller();
	if (!t)
		return NULL;
	t->reads_own_memory = 1;
	t->attachments = t->is_over = t->has_late = t->commands = 0;
	t->attached = t->spent = t->looked_at = 0;
	t->write_number = 1;
	t->write_from = commands_from;
	t->write_told = t->copied = t->stack_of = 0;
	return t;
}

/* What a program begins with. It returns 2 if there is nothing to play with. */
#define BEGIN(its_caller) \
	struct thread *t = its_caller; \
	struct scratch *s = scratch(); \
	if (!t || !s) \
		return 2

/* The driver begins a command, and the next bytes of the write are copied. */
SEC("raw_tp/measured") int measure_command(void *unused)
{
	BEGIN(measured_call());
	t->write_bytes = MOST_COMMANDS;
	t->consumed = CODE_WORD + TRANSACTION_BYTES;
	u64 begun = bpf_ktime_get_ns();
	take_command(t, 0, first_word);
	took = bpf_ktime_get_ns() - begun;
	reason_of_loss = t->write_told;
	return t->attachments;
}

/* ---- a write of which the driver begins one command after the other, and then ends it */

SEC("raw_tp/played") int play_entry(void *unused)
{
	BEGIN(measured_call());
	t->write_bytes = t->copied = MOST_COMMANDS;	/* the commands themselves are not copied */
	t->consumed = 0;
	return 0;
}

SEC("raw_tp/played") int play_command(void *unused)
{
	BEGIN(caller());
	u32 record = t->consumed;
	t->consumed += CODE_WORD + TRANSACTION_BYTES;
	return take_command(t, record, first_word);
}

SEC("raw_tp/played") int play_write_done(void *unused)
{
	BEGIN(caller());
	begin_run(s);
	return end_write(t, t->consumed);
}

/* ---- calls that write and read little: the returned value is 0 if one message takes all */

SEC("raw_tp/played") int play_small_write(void *unused)
{
	BEGIN(measured_call());
	t->write_bytes = returns_bytes;
	u32 failed = copy_small_write(s, t, 0);
	attachments = t->attachments;
	bytes_looked_at = t->looked_at;
	return failed;
}

SEC("raw_tp/played") int play_small_read(void *unused)
{
	BEGIN(measured_call());
	u32 failed = copy_small_read(s, t, returns_from, returns_bytes, 1);
	attachments = t->attachments;
	return failed;
}

/* ---- the command line of the caller */

static struct opening looked_at;

/* A second has passed, so that it is looked at. */
SEC("raw_tp/played") int play_look(void *unused)
{
	looked_at.look_at = 0;
	look_at_command(&looked_at, (u64)READ(current_task(), mm), bpf_ktime_get_ns());
	return 0;
}

/* Whether the caller is one of --only. */
SEC("raw_tp/played") int play_wanted(void *unused)
{
	looked_at.look_at = 0;
	looked_at.recorded = WANTED_BY_NAME_PERHAPS;
	look_whether_wanted(&looked_at);
	return looked_at.recorded == WANTED;
}

/* ---- openings of the caller, of files that are not there */

u64 played_file = 0;

SEC("raw_tp/played") int play_open(void *unused)
{
	return begin_opening((void *)played_file);
}

SEC("raw_tp/played") int play_release(void *unused)
{
	return end_opening(played_file);
}

/* ---- numbers, which several processors take at once */

#define MOST_NUMBERS (1u << 21)
#define AT_ONCE 512

/* How often each number was given. */
struct {
	__uint(type, BPF_MAP_TYPE_ARRAY);
	__uint(max_entries, MOST_NUMBERS);
	__uint(map_flags, BPF_F_MMAPABLE);
	__type(key, u32);
	__type(value, u64);
} given SEC(".maps");
u64 falling = 0;	/* how often a processor got a number that was not above the one before */

STEP(take_one)
{
	u32 cpu = bpf_get_smp_processor_id() & (MOST_CPUS - 1), number = take_number();
	u64 *times = bpf_map_lookup_elem(&given, &number);
	if (number && number <= taking[cpu].unused[0])
		__sync_fetch_and_add(&falling, 1);
	if (number)
		taking[cpu].unused[0] = number;
	if (times)
		__sync_fetch_and_add(times, 1);
	number_is_told();
	return 0;
}

SEC("raw_tp/played") int play_numbers(void *unused)
{
	LOOP(AT_ONCE, take_one);
	return 0;
}

/* ---- the longest runs */

/* The stack of the call that runs this is taken. */
SEC("raw_tp/measured") int measure_stack(void *context)
{
	BEGIN(measured_call());
	u64 begun = bpf_ktime_get_ns();
	if (wants_stack(t, BC_REPLY) && !wants_stack(t, BC_RELEASE))
		take_stack(context, t);
	took = bpf_ktime_get_ns() - begun;
	return wants_stack(t, BC_REPLY);
}

/* A read comes back, with as many bytes and attachments as are taken. */
SEC("raw_tp/measured") int measure_return(void *unused)
{
	BEGIN(measured_call());
	t->spent = 2 * FIRST_BYTES;		/* by the write of the call */
	begin_run(s);
	u64 begun = bpf_ktime_get_ns();
	reason_of_loss = copy_read(t, returns_from, returns_bytes, 1);
	took = bpf_ktime_get_ns() - begun;
	return t->attachments;
}
