#include "kernel.h"
#include "devices.h"
#include "drivers.h"
#include "messages.h"
#include "names.h"
#include "needs.h"
#include "side.h"
#include "tracepoints.h"
#include <bpf/bpf.h>
#include <bpf/libbpf.h>
#include <errno.h>
#include <stdio.h>
#include <stdlib.h>
#include <string.h>
#include <sys/wait.h>
#include <unistd.h>
#include "older.skel.h"
#include "record.skel.h"

#define MOST_LINKS (8 * DRIVERS)

static struct record *program;
static struct bpf_link *links[MOST_LINKS];	/* to the drivers */
static u32 link_count;
static struct ring tickets[2];	/* by which older kernels give numbers: of frames, and of all else; see helped.bpf.h */
static u64 end_number = UINT64_MAX;	/* with which the recording has ended */
static char last_words[512];

/* Keeps the first line that libbpf writes about a failure, for the message to the user. */
static int keep_words(enum libbpf_print_level level, const char *format, va_list arguments)
{
	if (level == LIBBPF_WARN && !last_words[0]) {
		vsnprintf(last_words, sizeof last_words, format, arguments);
		last_words[strcspn(last_words, "\n")] = 0;
	}
	return 0;
}

static void fail_to_load(const char *what, int error)
{
	error = error < 0 ? -error : error;
	if (error == EPERM || error == EACCES)
		fail("the kernel does not let this process %s: root is needed, and no lockdown (%s)", what, last_words);
	if (error == EINVAL)
		fail("the kernel could not %s: it is too old, or locked down (%s)", what, last_words);
	fail("the kernel could not %s: %s (%s)", what, strerror(error), last_words);
}

/* Before 6.1 a kernel warns of tables that take memory in such a program: there they take all of it beforehand. */
static void set_up_tables(void)
{
	struct bpf_map *map;
	if (!kernel_is_before(6, 1))
		return;
	bpf_object__for_each_map(map, program->obj)
		if (bpf_map__type(map) == BPF_MAP_TYPE_HASH)
			bpf_map__set_map_flags(map, bpf_map__map_flags(map) & ~(u32)BPF_F_NO_PREALLOC);
}

/* Whether the programs are attached to the driver's tracepoints as raw ones, without perf's help, which costs less. The
 * kernel looks for such a tracepoint by its name alone, and so finds that of one driver. By the headers of 7.2 no
 * tracepoint turns preemption off any more, but perf does. */
static int takes_raw(void)
{
	return kernel_is_before(7, 0) && !driver_is_recorded(DRIVER_IN_RUST);
}

static struct bpf_program *program_named(const char *name)
{
	return bpf_object__find_program_by_name(program->obj, name);
}

static void make_raw(void)
{
	program->rodata->is_raw = 1;
	bpf_program__set_type(program->progs.look_at_preemption, BPF_PROG_TYPE_RAW_TRACEPOINT);
	for (const struct tracepoint *each = tracepoints_of_driver; each->program; each++)
		bpf_program__set_type(program_named(each->program), BPF_PROG_TYPE_RAW_TRACEPOINT);
}

static void set_up(const struct options *options)
{
	set_up_tables();
	if (takes_raw())
		make_raw();
	bpf_program__set_autoattach(program->progs.meet_openings, false);
	bpf_program__set_autoattach(program->progs.look_at_preemption, false);
	bpf_map__set_max_entries(program->maps.ring, (u32)options->ring);
	bpf_map__set_max_entries(program->maps.scratches, (u32)libbpf_num_possible_cpus());
	program->rodata->ring_limit = options->ring / 16 * 15;
	program->rodata->no_attachments = (u32)options->no_attachments;
	program->rodata->takes_stacks = (u32)options->stacks;
	if (options->stacks)
		bpf_map__set_max_entries(program->maps.stack_scratches, (u32)libbpf_num_possible_cpus());
	program->rodata->by_process = options->process_count + options->called_count != 0;
	program->rodata->by_name = options->called_count != 0;
	program->rodata->by_device = options->device_count != 0;
}

/* A name, or only digits: a user. */
static void name_called(const char *text)
{
	char name[CALLED_BYTES] = "";
	u32 one = 1, user = (u32)strtoul(text, NULL, 10);
	snprintf(name, sizeof name, "%s", text);
	if (text[strspn(text, "0123456789")])
		bpf_map__update_elem(program->maps.wanted_names, name, sizeof name, &one, sizeof one, BPF_ANY);
	else
		bpf_map__update_elem(program->maps.wanted_users, &user, sizeof user, &one, sizeof one, BPF_ANY);
}

static void name_wanted(const struct options *options)
{
	u32 one = 1;
	for (u32 i = 0; i < options->called_count; i++)
		name_called(options->called[i]);
	for (u32 i = 0; i < options->process_count; i++) {
		need_process(options->processes[i]);
		bpf_map__update_elem(program->maps.wanted_processes, &options->processes[i], sizeof one, &one,
				     sizeof one, BPF_ANY);
	}
	for (u32 i = 0; i < options->device_count; i++) {
		u32 device = need_device(options->devices[i]);
		bpf_map__update_elem(program->maps.wanted_devices, &device, sizeof one, &one, sizeof one, BPF_ANY);
	}
}

static struct bpf_link *attach_tracepoint(const struct bpf_program *to, const char *system, const char *name)
{
	if (takes_raw())
		return bpf_program__attach_raw_tracepoint(to, name);
	return bpf_program__attach_tracepoint(to, system, name);
}

/* The programs share one memory for each processor: two that run by turns there would mix their bytes. */
static void need_processor_kept(void)
{
	if (bpf_program__fd(program->progs.look_at_preemption) < 0) {
		need_no_preemption(PREEMPTION_UNKNOWN);
		return;
	}
	struct bpf_link *link = attach_tracepoint(program->progs.look_at_preemption, "sched", "sched_process_exit");
	if (!link)
		fail_to_load("attach the recorder's program", errno);
	pid_t child = fork();
	if (child == 0)
		_exit(0);
	if (child < 0 || waitpid(child, NULL, 0) != child)
		fail("no process could be made: %s", strerror(errno));
	bpf_link__destroy(link);
	need_no_preemption(program->bss->preemption);
}

/* Returns 0, or an error. */
static int keep_link(struct bpf_link *link)
{
	if (!link)
		return -errno;
	links[link_count++] = link;
	return 0;
}

/* Returns 0, or an error. */
static int attach_tracepoints(enum driver driver)
{
	const struct tracepoint *each = tracepoints_of_driver;
	const char *system = driver_system(driver);
	int error = 0;
	for (; each->program && !error; each++) {
		const char *name = tracepoint_name(each, system);
		error = name ? keep_link(attach_tracepoint(program_named(each->program), system, name)) : -ENOENT;
	}
	return error;
}

static int attach_probe(struct bpf_program *to, const char *function)
{
	return keep_link(bpf_program__attach_kprobe(to, false, function));
}

/* Returns 0 if both are attached, or an error, and then neither is. */
static int attach_to_functions(struct bpf_program *at_open, const char *opens, struct bpf_program *at_release,
			       const char *releases)
{
	int error = attach_probe(at_open, opens);
	if (error)
		return error;
	error = attach_probe(at_release, releases);
	if (error)
		bpf_link__destroy(links[--link_count]);
	return error;
}

/* Returns 0, or an error. Of two drivers only one attaches them: they are for both. */
static int attach_to_all_files(void)
{
	static int is_done;
	int error = is_done ? 0 : attach_to_functions(program->progs.at_any_open, "security_file_open",
						      program->progs.at_any_release, "locks_remove_file");
	is_done = !error;
	return error;
}

/* The beginnings and ends of openings are seen at functions of the driver, or else, as where a compiler has put these
 * into others, at functions that each file passes. Without them all else is seen. */
static void attach_probes(enum driver driver)
{
	char opens[FUNCTION_BYTES], releases[FUNCTION_BYTES];
	if (driver_function(driver, "open", opens) && driver_function(driver, "release", releases) &&
	    !attach_to_functions(program->progs.at_open, opens, program->progs.at_release, releases))
		return;
	if (attach_to_all_files())
		complain("no kprobes: the beginnings and ends of openings are not recorded");
}

/* Returns 0, or an error. */
static int attach_to_drivers(void)
{
	int error = 0;
	for (enum driver driver = 0; driver < DRIVERS && !error; driver++)
		if (driver_is_recorded(driver)) {
			attach_probes(driver);
			error = attach_tracepoints(driver);
		}
	return error;
}

/* The programs for older kernels have the same names and variables: build.sh compares them. Returns NULL after an
 * error. */
static struct record *open_program(int is_older)
{
	struct record *opened = calloc(1, sizeof *opened);
	if (!opened || record__create_skeleton(opened)) {
		free(opened);
		return NULL;
	}
	if (is_older)
		opened->skeleton->data = (void *)older__elf_bytes(&opened->skeleton->data_sz);
	if (!bpf_object__open_skeleton(opened->skeleton, NULL))
		return opened;
	int error = errno;
	record__destroy(opened);
	errno = error;
	return NULL;
}

/* Returns 0, or an error. */
static int load(const struct options *options, int is_older, int looks_at_preemption)
{
	last_words[0] = 0;
	program = open_program(is_older);
	if (!program)
		fail_to_load("open the recorder's program", errno);
	set_up(options);
	bpf_program__set_autoload(program->progs.look_at_preemption, looks_at_preemption);
	int error = record__load(program);
	if (error)
		record__destroy(program);
	return error;
}

/* Only the programs for older kernels have such rings. Returns 0, or an error. */
static int open_tickets(const char *name, struct ring *to)
{
	struct bpf_map *map = bpf_object__find_map_by_name(program->obj, name);
	return map ? ring_open(to, bpf_map__fd(map), bpf_map__max_entries(map)) : 0;
}

void kernel_load(const struct options *options, struct ring *ring)
{
	libbpf_set_print(keep_words);
	if (libbpf_num_possible_cpus() > (int)MOST_CPUS)
		fail("the recorder is made for at most %u processors", MOST_CPUS);
	int is_older = kernel_is_older();
	int error = load(options, is_older, !is_older);	/* an older one turns preemption off at tracepoints */
	if (error && !is_older)	/* perhaps kallsyms has no variables, and so not the count of preemption */
		error = load(options, 0, 0);
	if (error)
		fail_to_load("load the recorder's program", error);
	name_wanted(options);
	need_processor_kept();
	error = record__attach(program);
	error = error ? error : attach_to_drivers();
	if (error == -ENOENT)
		fail("%s", need_driver_words);
	if (error)
		fail_to_load("attach the recorder's program", error);
	error = ring_open(ring, bpf_map__fd(program->maps.ring), options->ring);
	error = error ? error : open_tickets("tickets_of_number", &tickets[0]);
	error = error ? error : open_tickets("tickets_of_opening", &tickets[1]);
	if (error)
		fail_to_load("map the ring", error);
}

static void add_device(u32 device, enum driver driver)
{
	(void)driver;
	u32 one = 1;
	bpf_map__update_elem(program->maps.driver_devices, &device, sizeof device, &one, sizeof one, BPF_ANY);
}

void kernel_meet_openings(void)
{
	devices_made_by_driver(add_device);
	struct bpf_link *link = bpf_program__attach(program->progs.meet_openings);
	int descriptor = link ? bpf_iter_create(bpf_link__fd(link)) : -1;
	struct met_opening met;
	ssize_t bytes = 0;
	while (descriptor >= 0 && (bytes = read(descriptor, &met, sizeof met)) == (ssize_t)sizeof met) {
		names_opening(met.opening, now(), (u32)met.device, (u32)met.process, met.start, met.name,
			      MET_IN_MID_LIFE);
		names_space(met.opening, met.space, met.id_there);
	}
	if (descriptor < 0 || bytes < 0)
		complain("the openings that exist already could not be looked up: each is met at its first call");
	if (descriptor >= 0)
		close(descriptor);
	bpf_link__destroy(link);
}

void kernel_start(void)
{
	__atomic_store_n(&program->data->stopped, 0, __ATOMIC_SEQ_CST);
}

/* The end is a place in the order of the numbers, which one counter gives to all processors: what took its number
 * before this look at the counter is in the recording, and what took it later is not. Of two frames of which one comes
 * of the other, that one has the higher number, on whichever processors they are: so all that a frame of the recording
 * comes of is before the end, too. `stopped` only saves work. A processor may see it some time later, and take more
 * numbers. */
u64 kernel_stop(void)
{
	end_number = kernel_last_number();
	__atomic_store_n(&program->data->stopped, 1, __ATOMIC_SEQ_CST);
	return end_number;
}

void kernel_detach(void)
{
	record__detach(program);
	while (link_count)
		bpf_link__destroy(links[--link_count]);
}

static void forget(const void *message, u64 bytes)
{
	(void)message;
	(void)bytes;
}

void kernel_make_room(void)
{
	for (u32 i = 0; i < 2; i++)
		if (tickets[i].size)
			ring_drain(&tickets[i], forget);
}

u64 kernel_last_number(void)
{
	u64 number = tickets[0].size ? __atomic_load_n(tickets[0].put, __ATOMIC_SEQ_CST) / TICKET_BYTES :
				       __atomic_load_n(&program->bss->last_number, __ATOMIC_SEQ_CST);
	return number < end_number ? number : end_number;
}

u64 kernel_bound(void)
{
	u64 bound = kernel_last_number();
	u32 processors = (u32)libbpf_num_possible_cpus();
	__atomic_thread_fence(__ATOMIC_SEQ_CST);
	for (u32 i = 0; i < processors; i++) {
		u64 number = __atomic_load_n(&program->bss->taking[i].number, __ATOMIC_SEQ_CST);
		if (number && number - 1 < bound)
			bound = number - 1;
	}
	return bound;
}

u64 kernel_calls_32_bit(void)
{
	return program->bss->calls_32_bit;
}

u64 kernel_calls_without_number(void)
{
	return program->bss->calls_without_room + program->bss->calls_without_file;
}

/* Puts the share into the list, which falls, at its place, if it has one there. Returns how many there are then. */
static u32 add_holder(struct share *holders, u32 count, u32 most, struct share share)
{
	u32 place = count < most ? count : most - 1;
	if (count == most && holders[place].openings >= share.openings)
		return count;
	for (; place && holders[place - 1].openings < share.openings; place--)
		holders[place] = holders[place - 1];
	holders[place] = share;
	return count < most ? count + 1 : count;
}

u32 kernel_holders(struct share *holders, u32 most)
{
	u32 count = 0;
	for (u32 i = 0; i < SHARES; i++) {
		struct share share = program->bss->shares[i];
		if (share.openings)
			count = add_holder(holders, count, most, share);
	}
	return count;
}

u64 kernel_stacks_without_room(void)
{
	return program->bss->stacks_without_room;
}

u64 kernel_stacks_failed(void)
{
	return program->bss->stacks_failed;
}

u64 kernel_stacks_empty(void)
{
	return program->bss->stacks_empty;
}

/* Whether the program runs while frames are recorded. */
static int is_for_frames(const struct bpf_program *each)
{
	return bpf_program__fd(each) >= 0 && each != program->progs.meet_openings &&
	       each != program->progs.look_at_preemption;
}

/* Kernels before 6.7 do not count what they miss at tracepoints: calls of which only a part was seen show it too. */
u64 kernel_runs_missed(void)
{
	struct bpf_program *each;
	u64 missed = 0;
	bpf_object__for_each_program(each, program->obj) {
		struct bpf_prog_info info = { 0 };
		u32 length = sizeof info;
		if (is_for_frames(each) && !bpf_obj_get_info_by_fd(bpf_program__fd(each), &info, &length))
			missed += info.recursion_misses;
	}
	return missed > program->bss->half_calls ? missed : program->bss->half_calls;
}

void kernel_unload(void)
{
	record__destroy(program);
}
