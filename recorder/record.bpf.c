/* The recorder's program in the kernel: what it does at each event of the driver and of the scheduler. */
#include "called.bpf.h"
#include "small.bpf.h"
#include "stacks.bpf.h"
#include "tracepoints.h"

/* The functions of an opening: of the driver in C, and of the one in Rust. */
extern const void binder_fops __ksym __weak, rust_binder_fops __ksym __weak;

/* Both drivers have the same tracepoints. So kernel.c attaches the programs below whose section is only `tp` or `kprobe`
 * to each driver that is there. It may make those of the tracepoints raw ones, which get arguments in place of fields. */
const volatile u32 is_raw = 0;

/* The verifier must see each place as it is here: not as a sum that the compiler makes of two. */
#define TAKE(to, size, context, place) \
	asm volatile("%0 = *(" #size " *)(%1 + %2)" : "=r"(to) : "r"(context), "i"(place))

static __always_inline u32 number_of(void *context)
{
	u64 number;
	if (is_raw)
		TAKE(number, u64, context, 0);
	else
		TAKE(number, u32, context, __builtin_offsetof(struct number_fields, number));
	return number;
}

static __always_inline u64 argument_of(void *context)
{
	u64 argument;
	if (is_raw)
		TAKE(argument, u64, context, sizeof argument);
	else
		TAKE(argument, u64, context, __builtin_offsetof(struct ioctl_fields, argument));
	return argument;
}

static __always_inline enum wanted is_wanted(u32 process, u32 device)
{
	if (by_device && !bpf_map_lookup_elem(&wanted_devices, &device))
		return NOT_WANTED;
	if (!by_process || bpf_map_lookup_elem(&wanted_processes, &process))
		return WANTED;
	return by_name ? WANTED_BY_NAME_PERHAPS : NOT_WANTED;
}

/* Whether the opening, on which the process calls, is recorded. */
static __always_inline int is_recorded(struct opening *o, u32 process)
{
	if (by_name && o->recorded == WANTED_BY_NAME_PERHAPS && o->process == process)
		look_whether_wanted(o);
	return o->recorded == WANTED;
}

/* The namespace of the ids of a process, and its id there; both stay 0 for a process of the first one. */
static __always_inline void describe_space(struct opening *o, struct task_struct *task)
{
	struct pid *pid = BPF_CORE_READ(task, group_leader, thread_pid);
	u32 level = BPF_CORE_READ(pid, level);
	if (!level)
		return;
	struct upid *last = (void *)pid + bpf_core_field_offset(pid->numbers) + level * bpf_core_type_size(struct upid);
	o->space = BPF_CORE_READ(last, ns, ns.inum);
	o->id_there = BPF_CORE_READ(last, nr);
}

/* Fills in what is known of an opening. `task` belongs to the process that opened it, as far as that is known. */
static __always_inline void describe(struct opening *o, struct task_struct *task, struct file *file)
{
	o->id = NEXT(opening);
	o->memory = (u64)BPF_CORE_READ(task, mm);
	o->process = BPF_CORE_READ(task, tgid);
	o->device = BPF_CORE_READ(file, f_inode, i_rdev);
	o->start = BPF_CORE_READ(task, group_leader, start_boottime);
	BPF_CORE_READ_INTO(&o->name, task, group_leader, comm);
	o->recorded = is_wanted(o->process, o->device);
	describe_space(o, task);
}

/* Takes room for an opening of the process. Returns 0 if there is some. */
static __always_inline int take_share(u32 process)
{
	struct share *share = &shares[process & (SHARES - 1)];
	if (share->openings >= SHARE_OF_OPENINGS || opening_count >= MOST_OPENINGS)
		return 1;
	share->process = process;
	__sync_fetch_and_add(&share->openings, 1);
	__sync_fetch_and_add(&opening_count, 1);
	return 0;
}

static __always_inline void give_share_back(u32 process)
{
	__sync_fetch_and_add(&shares[process & (SHARES - 1)].openings, -1);
	__sync_fetch_and_add(&opening_count, -1);
}

/* Puts a new opening of the task's process into the table, if there is room for it. Returns 0 if it is there. */
static __always_inline long keep_opening(struct opening *o, struct task_struct *task, struct file *file)
{
	u64 key = (u64)file;
	if (take_share(BPF_CORE_READ(task, tgid)))
		return 1;
	describe(o, task, file);
	long failed = IS_GIVEN(o->id) ? bpf_map_update_elem(&openings, &key, o, BPF_NOEXIST) : 1;
	if (failed)
		give_share_back(o->process);
	return failed;
}

static __always_inline void forget_opening(struct opening *o, u64 key)
{
	u32 process = o->process;
	if (!bpf_map_delete_elem(&openings, &key))
		give_share_back(process);
}

/* An opening that is met without this is from before the recording. One that is there already has closed unseen. */
static __always_inline int begin_opening(struct file *file)
{
	u64 key = (u64)file;
	struct opening o = {}, *before = bpf_map_lookup_elem(&openings, &key);
	if (before)
		forget_opening(before, key);
	o.born = 1;
	keep_opening(&o, current_task(), file);
	return 0;
}

static __always_inline int end_opening(u64 key)
{
	struct opening *o = bpf_map_lookup_elem(&openings, &key);
	if (!o)
		return 0;
	if (o->told)
		say(MESSAGE_CLOSED, 0, o->id, LAST(number), 0, 0, 0, 0);
	forget_opening(o, key);
	return 0;
}

/* When a driver opens a device, and when it releases an opening. */
SEC("kprobe") int at_open(struct pt_regs *registers)
{
	return begin_opening((void *)PT_REGS_PARM2(registers));
}

SEC("kprobe") int at_release(struct pt_regs *registers)
{
	return end_opening(PT_REGS_PARM2(registers));
}

#define BINDER_AS_NUMBER 0x7265646e6962ull	/* the bytes of the name of the file system of binderfs, of both drivers */

/* Whether the file is an opening. Where kallsyms hides addresses, its device tells: one of those that the driver made
 * itself, or any in a binderfs but binder-control, which has no `flush`. */
static __always_inline int is_opening(struct file *file)
{
	char name[8] __attribute__((aligned(8))) = {};
	const void *functions = BPF_CORE_READ(file, f_op);
	if (&binder_fops || &rust_binder_fops)
		return functions && (functions == &binder_fops || functions == &rust_binder_fops);
	u32 device = BPF_CORE_READ(file, f_inode, i_rdev);
	if (!device)
		return 0;
	if (bpf_map_lookup_elem(&driver_devices, &device))
		return 1;
	bpf_probe_read_kernel_str(name, sizeof name, BPF_CORE_READ(file, f_inode, i_sb, s_type, name));
	return BPF_CORE_READ(file, f_op, flush) && *(u64 *)name == BINDER_AS_NUMBER;
}

/* Where the driver's own functions can't be probed: when any file is opened, and when any file is released. */
SEC("kprobe") int at_any_open(struct pt_regs *registers)
{
	struct file *file = (void *)PT_REGS_PARM1(registers);
	return is_opening(file) ? begin_opening(file) : 0;
}

SEC("kprobe") int at_any_release(struct pt_regs *registers)
{
	struct file *file = (void *)PT_REGS_PARM1(registers);
	return is_opening(file) ? end_opening((u64)file) : 0;
}

/* Goes once over the open files of all tasks, before the recording begins. */
SEC("iter/task_file") int meet_openings(struct bpf_iter__task_file *context)
{
	struct file *file = context->file;
	struct task_struct *task = context->task;
	if (!file || !task || !is_opening(file))
		return 0;
	u64 key = (u64)file;
	if (bpf_map_lookup_elem(&openings, &key))
		return 0;
	struct opening o = {};
	o.told = !by_name;	/* else it is told when its process calls, and says what it is called */
	if (keep_opening(&o, task, file) || !o.told || !o.recorded)
		return 0;
	struct met_opening met = {};
	met.process = o.process;
	met.device = o.device;
	met.start = o.start;
	met.opening = o.id;
	met.space = o.space;
	met.id_there = o.id_there;
	__builtin_memcpy(met.name, o.name, NAME_BYTES);
	bpf_seq_write(context->meta->seq, &met, sizeof met);
	return 0;
}

static __noinline int add_opening(struct task_struct *task, struct file *file)
{
	struct opening o = {};
	return keep_opening(&o, task, file);
}

static __noinline int add_thread(struct task_struct *task, u32 id, u32 process)
{
	struct scratch *s = scratch();
	u32 one = 1;
	if (!s)
		return 1;
	struct thread *t = &s->new_thread;	/* every other field is 0, or is set before it is read */
	t->id = NEXT(thread);
	t->process = process;
	t->start = BPF_CORE_READ(task, start_boottime);
	t->bits = 0;
	t->comm[0] = t->comm[1] = 0;
	__builtin_memset(t->name, 0, sizeof t->name);
	bpf_get_current_comm(t->name, sizeof t->name);
	bpf_map_update_elem(&processes, &process, &one, BPF_ANY);
	return IS_GIVEN(t->id) ? bpf_map_update_elem(&threads, &id, t, BPF_NOEXIST) : 1;
}

static __noinline int introduce_anew(struct opening *o, struct thread *t, u32 id)
{
	if (!o || !t)
		return 1;
	if (!o->told && !say(MESSAGE_OPENING, o->born, o->id, LAST(number), o->device | (u64)o->space << 32,
			      o->process | (u64)o->id_there << 32, o->start, o->name))
		o->told = 1;
	if (!t->told && !say(MESSAGE_THREAD, t->id, o->id, LAST(number), id | (u64)t->bits << 32, t->process, t->start,
			      t->name))
		t->told = 1;
	return !o->told || !t->told;
}

/* Reports the opening and the thread if they are not reported yet. Returns 0 if both are reported. */
static __always_inline int introduce(struct opening *o, struct thread *t, u32 id)
{
	return (!o->told || !t->told) && introduce_anew(o, t, id);
}

/* Reports another name of the thread. Returns 1 if it has one. */
static __noinline int tell_name(struct thread *t, u32 id)
{
	/* A kernel before 6.2 does not clear the bytes after the name. */
	char name[NAME_BYTES] __attribute__((aligned(8))) = {};
	bpf_get_current_comm(name, sizeof name);
	if (!t || (*(u64 *)name == *(u64 *)t->name && *(u64 *)(name + 8) == *(u64 *)(t->name + 8)))
		return 0;
	__builtin_memcpy(t->name, name, NAME_BYTES);
	if (t->told)
		say(MESSAGE_NAME, t->id, t->opening, LAST(number), id, t->process, 0, name);
	return 1;
}

/* Returns 1 if the thread has another name than at its last call. */
static __always_inline int look_at_name(struct task_struct *task, struct thread *t, u32 id)
{
	if (is_its_name(task, t->comm))
		return 0;
	return tell_name(t, id);
}

/* Begins a call of BINDER_WRITE_READ: keeps its fields as they are at entry, and copies what it writes. */
static __noinline int begin_call(struct thread *t, u64 call, u32 told, u64 time)
{
	struct scratch *s = scratch();
	if (!s || !t)
		return 0;
	if (read_call(s, call)) {
		lose(t, take_number(), REASON_CALL_UNREADABLE);
		number_is_told();
		return 0;
	}
	t->call = call;
	t->write_consumed = s->call.write_consumed;
	t->read_consumed = s->call.read_consumed;
	t->read_size = s->call.read_size;
	t->read_buffer = s->call.read_buffer;
	t->consumed = t->write_number = t->copied = t->looked_at = t->attached = t->spent = 0;
	t->commands = t->has_late = t->attachments = t->is_over = 0;
	t->write_told = t->write_failed = t->has_chunk = 0;
	t->call_is = CALL_RECORDED;
	if (s->call.write_consumed >= s->call.write_size)
		return 0;
	t->write_from = s->call.write_buffer + s->call.write_consumed;
	t->write_bytes = s->call.write_size - s->call.write_consumed;
	if (t->write_bytes > MOST_COMMANDS)
		t->write_bytes = MOST_COMMANDS;
	t->write_number = take_number();
	if (!IS_GIVEN(t->write_number))
		return 0;
	int reason = !told ? REASON_RING_FULL : copy_small_write(s, t, time) ? copy_write(t, 0, 0) : 0;
	if (reason) {
		lose(t, t->write_number, reason);
		t->write_told = 1;
	}
	number_is_told();
	return 0;
}

/* The call is not recorded: its return must not look like one whose entry was missed. */
static __always_inline void leave_out(u32 id)
{
	struct thread *t = bpf_map_lookup_elem(&threads, &id);
	if (t)
		t->call_is = CALL_NOT_RECORDED;
}

/* Looks at the caller, and reports what is new of it. Returns 0 if all is reported that frames need. */
static __always_inline int meet_caller(struct task_struct *task, struct opening *o, struct thread *t, u64 both, u32 bits,
				       u64 time)
{
	u32 id = both, process = both >> 32;
	u64 memory = (u64)READ(task, mm);
	if (look_at_name(task, t, id) && id == process)
		o->look_at = 0;
	if (t->bits != bits) {		/* it is told anew, with the other bits */
		t->bits = bits;
		t->told = 0;
	}
	int untold = introduce(o, t, id);
	if (!untold && o->process == process)
		look_at_command(o, memory, time);
	t->opening = o->id;
	t->reads_own_memory = memory == o->memory;
	return untold;
}

/* At the entry of any ioctl on a Binder device. */
static __always_inline int enter(struct task_struct *task, struct file *file, u32 command, u64 argument, u32 bits)
{
	u64 key = (u64)file, both = bpf_get_current_pid_tgid();
	u32 id = both, process = both >> 32;
	struct opening *o = bpf_map_lookup_elem(&openings, &key);
	if (!o) {
		add_opening(task, file);
		o = bpf_map_lookup_elem(&openings, &key);
	}
	if (o ? !is_recorded(o, process) : !is_wanted(process, BPF_CORE_READ(file, f_inode, i_rdev))) {
		leave_out(id);
		return 0;
	}
	struct thread *t = bpf_map_lookup_elem(&threads, &id);
	if (o && !t) {
		add_thread(task, id, process);
		t = bpf_map_lookup_elem(&threads, &id);
	}
	if (!o || !t) {
		__sync_fetch_and_add(&calls_without_room, 1);
		leave_out(id);
		return 0;
	}
	u64 time = bpf_ktime_get_ns();
	int told = !meet_caller(task, o, t, both, bits, time);
	if (t->call_is)
		__sync_fetch_and_add(&half_calls, 1);
	t->call_is = CALL_NOT_RECORDED;
	if (command == BINDER_THREAD_EXIT)
		say(MESSAGE_LEFT, t->id, o->id, LAST(number), id, process, 0, 0);
	if (command == BINDER_WRITE_READ)
		begin_call(t, argument, told, time);
	return 0;
}

/* Whether the call came in by the entry for 32-bit programs. */
static __always_inline int is_32_bit(struct task_struct *task, struct pt_regs *registers)
{
#ifdef __TARGET_ARCH_x86
	return (READ(task, thread_info.status) & TS_COMPAT) != 0;
#endif
#ifdef __TARGET_ARCH_arm64
	return (READ_FROM(&((struct user_pt_regs *)registers)->pstate) & 0x10) != 0;
#endif
}

/* The first argument of the system call. */
static __always_inline u32 descriptor_of_call(struct pt_regs *registers, int bits)
{
#ifdef __TARGET_ARCH_x86
	if (bits == 32)
		return READ_FROM(&registers->rbx);
#endif
	return READ_FROM(&PT_REGS_PARM1(registers));
}

/* The second and the third argument: the command of an ioctl, and its argument. */
static __always_inline u64 command_of_call(struct pt_regs *registers, int bits, u64 *argument)
{
#ifdef __TARGET_ARCH_x86
	if (bits == 32) {
		*argument = READ_FROM(&registers->rdx) & 0xffffffff;
		return READ_FROM(&registers->rcx) & 0xffffffff;
	}
#endif
	*argument = READ_FROM(&PT_REGS_PARM3(registers));
	return READ_FROM(&PT_REGS_PARM2(registers)) & 0xffffffff;
}

/* The file of a descriptor: it identifies the opening. */
static __always_inline u64 file_of(struct task_struct *task, u32 descriptor)
{
	struct file *file = 0, **files;
	struct fdtable *table = READ(task, files, fdt);
	files = READ(table, fd);
	if (descriptor >= READ(table, max_fds) || bpf_probe_read_kernel(&file, sizeof file, files + descriptor))
		return 0;
	return (u64)file;
}

SEC("tp") int at_entry(void *context)
{
	u32 command = number_of(context);
	if (stopped)
		return 0;
	struct task_struct *task = current_task();
	struct pt_regs *registers = registers_of(task);
	int bits = is_32_bit(task, registers) ? 32 : 64;
	if (command == WRITE_READ_OF_PROTOCOL_7) {
		__sync_fetch_and_add(&calls_32_bit, 1);
		leave_out(bpf_get_current_pid_tgid());
		return 0;
	}
	struct file *file = (void *)file_of(task, descriptor_of_call(registers, bits));
	if (!file) {
		__sync_fetch_and_add(&calls_without_file, 1);
		leave_out(bpf_get_current_pid_tgid());
		return 0;
	}
	return enter(task, file, command, argument_of(context), bits);
}

/* Whether the command at `record` has data that is not copied yet. */
static __always_inline int has_uncopied_data(const struct thread *t, u32 record, u32 word)
{
	return !no_attachments && record >= t->looked_at && has_data(DIRECTION_WRITE, word);
}

/* The driver begins the command that is at `record` of the write. */
static __noinline int take_command(struct thread *t, u32 record, u32 word)
{
	struct scratch *s = scratch();
	if (!s || !t)
		return 0;
	begin_run(s);
	int reason = t->copied < t->consumed ? copy_write(t, record, 0) : 0;
	if (reason) {
		t->write_told = 1;
		return lose(t, t->write_number, reason);
	}
	attach_late(t, record);
	if (!t->is_over && has_uncopied_data(t, record, word))
		attach_to_write(t, record, 0);
	return 0;
}

SEC("tp") int at_command(void *context)
{
	u32 id = bpf_get_current_pid_tgid(), word = number_of(context);
	struct thread *t = bpf_map_lookup_elem(&threads, &id);
	if (!t || t->call_is != CALL_RECORDED)
		return 0;
	u32 record = t->consumed;
	t->consumed += CODE_WORD + (word >> 16 & 0x3fff);
	t->commands++;
	if (t->write_number && !t->write_told &&
	    (t->copied < t->consumed || t->has_late || has_uncopied_data(t, record, word)))
		take_command(t, record, word);
	if (takes_stacks && wants_stack(t, word))
		take_stack(context, t);
	return 0;
}

/* The driver has finished the write, and consumed this many of its bytes. */
static __noinline int end_write(struct thread *t, u64 consumed)
{
	struct scratch *s = scratch();
	if (!s || !t)
		return 0;
	int reason = t->copied < consumed ? copy_write(t, consumed, 1) : 0;
	if (!reason && t->copied < consumed)
		reason = consumed > MOST_COMMANDS ? REASON_TOO_LARGE : REASON_UNREADABLE;
	if (reason) {
		t->write_told = 1;
		return lose(t, t->write_number, reason);
	}
	attach_late(t, consumed);
	if (!say_written(s, t, consumed))
		t->write_told = 1;
	return 0;
}

/* When the driver has finished the write. After an error the last command that it began is not consumed, or the next
 * code word could not be read; then the return of the call says what it consumed. */
SEC("tp") int at_write_done(void *context)
{
	int result = number_of(context);
	u32 id = bpf_get_current_pid_tgid();
	struct thread *t = bpf_map_lookup_elem(&threads, &id);
	struct scratch *s = scratch();
	if (t && result < 0)
		t->write_failed = 1;
	else if (s && t && t->call_is == CALL_RECORDED && t->write_number && !t->write_told) {
		begin_run(s);
		end_write(t, t->consumed);
		if (!t->write_told)	/* no room to report it: at the return it is tried once more */
			t->write_told = 2;
	}
	return 0;
}

/* Copies what the call read. */
static __noinline int end_read(struct thread *t, u64 bytes)
{
	struct scratch *s = scratch();
	if (!s || !t)
		return 0;
	u64 number = take_number(), from = t->read_buffer + t->read_consumed;
	if (!IS_GIVEN(number))
		return 0;
	int reason = 0;
	if (!bytes)
		reason = REASON_EFAULT;
	else if (copy_small_read(s, t, from, bytes, number))
		reason = copy_read(t, from, bytes, number);
	if (reason)
		lose(t, number, reason);
	number_is_told();
	return 0;
}

/* Of a call that was in the driver when the recording began, what it reads is recorded. Its write was before that, and
 * its read_consumed was 0, as in all known programs. A thread that has called since is in the table already. */
static __noinline int meet_return(u32 id, u32 process)
{
	struct task_struct *task = current_task();
	struct pt_regs *registers = registers_of(task);
	int bits = is_32_bit(task, registers) ? 32 : 64;
	u64 argument = 0, key;
	if (command_of_call(registers, bits, &argument) != BINDER_WRITE_READ)
		return 0;
	key = file_of(task, descriptor_of_call(registers, bits));
	struct opening *o = bpf_map_lookup_elem(&openings, &key);
	if (!o || !is_recorded(o, process) || add_thread(task, id, process))
		return 0;
	struct thread *t = bpf_map_lookup_elem(&threads, &id);
	struct scratch *s = scratch();
	if (!t || !s)
		return 0;
	meet_caller(task, o, t, (u64)process << 32 | id, bits, bpf_ktime_get_ns());
	t->call = argument;
	t->write_number = t->attached = t->spent = t->write_consumed = t->read_consumed = 0;
	t->commands = t->has_late = t->attachments = t->is_over = 0;
	t->read_size = 1;
	t->read_buffer = read_call(s, argument) ? 0 : s->call.read_buffer;
	t->call_is = CALL_RECORDED;
	return 0;
}

/* Whether the first command of a write was the one that failed, so that nothing was consumed. Otherwise the driver
 * would have begun the next command, or the write has none, and would not have failed. It could not begin one whose
 * code word can't be read. */
static __noinline int failed_at_once(struct thread *t)
{
	u32 word;
	if (!t || !t->write_failed || t->commands != 1)
		return 0;
	return t->consumed >= t->write_bytes ||
	       !bpf_probe_read_user(&word, sizeof word, (void *)(t->write_from + t->consumed));
}

SEC("tp") int at_return(void *context)
{
	int result = number_of(context);
	u64 both = bpf_get_current_pid_tgid();
	u32 id = both;
	struct thread *t = bpf_map_lookup_elem(&threads, &id);
	struct scratch *s = scratch();
	if (!t && !stopped) {
		meet_return(id, both >> 32);
		t = bpf_map_lookup_elem(&threads, &id);
	}
	if (!s || !t)
		return 0;
	u8 call_is = t->call_is;
	t->call_is = NO_CALL;
	if (call_is == NO_CALL && !stopped)
		__sync_fetch_and_add(&half_calls, 1);
	if (call_is != CALL_RECORDED)
		return 0;
	int unreadable = read_call(s, t->call);
	u64 written = s->call.write_consumed - t->write_consumed;
	s64 read = s->call.read_consumed - t->read_consumed;
	int unknown = unreadable || (result == -EFAULT && written == 0 && read == 0);
	if (t->write_number && t->write_told && result == 0 && !unreadable && written != t->consumed)
		__sync_fetch_and_add(&half_calls, 1);
	if (t->write_number && t->write_told == 2)
		say_written(s, t, t->consumed);
	if (t->write_number && !t->write_told) {	/* the write failed, and nothing was read */
		if (unknown && t->commands && !failed_at_once(t))
			lose(t, t->write_number, REASON_EFAULT);
		else
			end_write(t, unknown ? 0 : written);
	} else if (stopped) {		/* what is read after the end is not in the recording */
		return 0;
	} else if (unknown) {
		if (t->read_consumed < t->read_size)
			end_read(t, 0);
	} else if (read > 0) {
		end_read(t, read);
	}
	return 0;
}

SEC("tp/sched/sched_process_exit") int at_exit(void *fields)
{
	struct task_struct *task = current_task();
	u64 both = bpf_get_current_pid_tgid();
	u32 id = both, process = both >> 32;
	struct thread *t = bpf_map_lookup_elem(&threads, &id);
	int is_last = BPF_CORE_READ(task, signal, live.counter) == 0;
	if (t || (is_last && bpf_map_lookup_elem(&processes, &process)))
		say(MESSAGE_ENDED, t ? t->id : 0, t ? t->opening : 0, LAST(number), id, process, is_last, 0);
	if (t)
		bpf_map_delete_elem(&threads, &id);
	if (is_last)
		bpf_map_delete_elem(&processes, &process);
	return 0;
}

/* A thread that calls exec, and is not the first one of its process, takes the id of the first one. */
SEC("tp/sched/sched_process_exec") int at_exec(struct exec_fields *fields)
{
	u64 both = bpf_get_current_pid_tgid();
	u32 old = fields->old_id, id = both;
	struct thread *t = bpf_map_lookup_elem(&threads, &old);
	if (old == id || !t)
		return 0;
	say(MESSAGE_ENDED, t->id, t->opening, LAST(number), old, both >> 32, 0, 0);
	bpf_map_delete_elem(&threads, &old);
	return 0;
}

#ifdef __TARGET_ARCH_x86
extern const int __preempt_count __ksym __weak;
extern const struct pcpu_hot pcpu_hot __ksym __weak;	/* has the count in Linux 6.2 to 6.14 */

static __always_inline int read_preempt_count(int *count)
{
	if (&__preempt_count)
		*count = *(int *)bpf_this_cpu_ptr(&__preempt_count);
	else if (&pcpu_hot)
		*count = ((struct pcpu_hot *)bpf_this_cpu_ptr(&pcpu_hot))->preempt_count;
	else
		return 0;
	return 1;
}
#endif
#ifdef __TARGET_ARCH_arm64
static __always_inline int read_preempt_count(int *count)
{
	*count = BPF_CORE_READ(current_task(), thread_info.preempt_count);
	return 1;
}
#endif

/* Runs once, before the recording: finds out whether a program like the above ones keeps its processor until its end.
 * The lowest 8 bits of the count say how often preemption was turned off. */
SEC("tp/sched/sched_process_exit") int look_at_preemption(void *fields)
{
	int count = 0;
	if (!read_preempt_count(&count))
		preemption = PREEMPTION_UNKNOWN;
	else
		preemption = count & 0xff ? PREEMPTION_IS_OFF : PREEMPTION_IS_ON;
	return 0;
}

char LICENSE[] SEC("license") = "GPL";
