/* copying ROUNDS: plays a write and a command line, and prints how long the recorder's programs in the kernel copy
 * without a pause, at the most. See copying. */
#include "common.h"
#include "messages.h"
#include <bpf/bpf.h>
#include <bpf/libbpf.h>
#include <linux/android/binder.h>
#include <pthread.h>
#include <stdio.h>
#include <stdlib.h>
#include <string.h>
#include <sys/mman.h>
#include <sys/syscall.h>
#include <sys/wait.h>
#include <unistd.h>
#include "ring.h"
#include "copying.skel.h"

enum { RECORD = 4 + sizeof(struct binder_transaction_data) };

static struct copying *program;
static struct ring ring;
static u64 seen, room;

static void count(const void *message, u64 bytes)
{
	(void)message;
	seen += bytes;
}

static void drain(void (*hear)(const void *, u64))
{
	while (hear && ring_drain(&ring, hear) > 0)
		continue;
}

/* Runs a program, and hears what it puts into the ring. Returns what it returns. */
static u32 run_program(const struct bpf_program *played, void (*hear)(const void *, u64), const char *what)
{
	LIBBPF_OPTS(bpf_test_run_opts, run);
	int error = bpf_prog_test_run_opts(bpf_program__fd(played), &run);
	if (error)
		fail("%s: the program does not run: error %d", what, error);
	drain(hear);
	return run.retval;
}

/* Memory that is not there before it is touched. */
static void *memory_that_is_away(u64 bytes)
{
	void *made = mmap(NULL, bytes, PROT_READ | PROT_WRITE, MAP_PRIVATE | MAP_ANONYMOUS, -1, 0);
	if (made == MAP_FAILED)
		fail("no memory");
	return made;
}

static void *memory(u64 bytes)
{
	return memset(memory_that_is_away(bytes), 7, bytes);
}

static void put_record(u8 *to, u32 word, const void *data, u64 bytes)
{
	struct binder_transaction_data made = { .data_size = bytes };
	made.data.ptr.buffer = (binder_uintptr_t)data;
	memcpy(to, &word, 4);
	memcpy(to + 4, &made, sizeof made);
}

/* As many records as are looked at: `attachments` with data, then the smallest ones. */
static void fill_returns(u8 *returns, const u8 *data, u64 each, u32 attachments)
{
	u32 small = BR_NOOP;
	u64 at = 0;
	for (u32 i = 0; i < attachments; i++, at += RECORD)
		put_record(returns + at, BR_REPLY, data + i * each, each);
	for (; at + 4 <= MOST_RETURNS; at += 4)
		memcpy(returns + at, &small, 4);
	program->bss->returns_from = (u64)returns;
	program->bss->returns_bytes = at;
}

static int compare(const void *one, const void *two)
{
	u64 a = *(const u64 *)one, b = *(const u64 *)two;
	return a < b ? -1 : a > b;
}

static void tell_times(const char *what, u64 *took, u32 rounds)
{
	qsort(took, rounds, sizeof *took, compare);
	printf("%-66s %8.1f %8.1f %8.1f\n", what, (double)took[0] / 1e3, (double)took[rounds / 2] / 1e3,
	       (double)took[rounds * 9 / 10] / 1e3);
	free(took);
}

static void measure(const char *what, const struct bpf_program *measured, u32 rounds, u64 bytes, u32 attachments)
{
	u64 *took = allocate(rounds * sizeof *took);
	for (u32 i = 0; i < rounds; i++) {
		seen = 0;
		u32 came = run_program(measured, count, what);
		if (program->bss->reason_of_loss || came != attachments || seen < bytes)
			fail("%s: loss %u, %u attachments, %llu bytes", what, program->bss->reason_of_loss, came,
			     (unsigned long long)seen);
		took[i] = program->bss->took;
	}
	tell_times(what, took, rounds);
}

/* ---- a write with data that is not there when the driver begins the command, or that is too much for one run */

static const struct { u64 bytes; int is_there, is_late; } sends[] = {
	{ 5000, 0, 1 },
	{ 600000, 0, 1 },
	{ 600000, 1, 1 },		/* the run has copied the one before */
	{ 600000, 1, 1 },
	{ 70000, 0, 1 },
	{ 100, 1, 0 },
	{ MOST_AT_ONCE, 1, 0 },
	{ 40000, 1, 0 },
	{ 3, 1, 0 },
	{ MOST_AT_ONCE, 0, 1 },
};
enum { SENDS = sizeof sends / sizeof *sends };

static u8 *data_of[SENDS];
static u64 got[SENDS];
static u32 late[SENDS], written, chunks, others;

static void hear(const void *message, u64 bytes)
{
	const struct message *head = message;
	const struct piece *piece = message;
	const struct event *event = message;
	(void)bytes;
	if (head->type == MESSAGE_PIECE) {
		u32 which = piece->record / RECORD;
		got[which] = piece->at ? got[which] : 0;	/* an attachment that failed begins anew */
		if (piece->at == got[which] && !memcmp(piece + 1, data_of[which] + piece->at, piece->bytes))
			got[which] += piece->bytes;
	} else if (head->type == MESSAGE_LATE) {
		late[event->note.record / RECORD]++;
	} else if (head->type == MESSAGE_WRITTEN) {
		written++;
	} else {
		others++;
	}
}

static void count_chunks(const void *message, u64 bytes)
{
	const struct message *head = message;
	(void)bytes;
	chunks += head->type == MESSAGE_CHUNK;
	others += head->type == MESSAGE_UNATTACHED;
}

static void run(const struct bpf_program *played)
{
	if (run_program(played, hear, "a write"))
		fail("a write: the program fails");
}

/* Each attachment comes, whole, once and in the right run. */
static void play(u8 *commands)
{
	for (int i = 0; i < SENDS; i++) {
		data_of[i] = memory_that_is_away(sends[i].bytes);
		if (sends[i].is_there)
			memset(data_of[i], i + 1, sends[i].bytes);
		put_record(commands + i * RECORD, BC_TRANSACTION, data_of[i], sends[i].bytes);
	}
	run(program->progs.play_entry);
	for (int i = 0; i < SENDS; i++) {
		run(program->progs.play_command);
		if (sends[i].is_there != (got[i] == sends[i].bytes) && !sends[i].is_late)
			fail("send %d is not copied when its command begins", i);
		if (!sends[i].is_there)
			memset(data_of[i], 0, sends[i].bytes);	/* the driver reads it */
	}
	run(program->progs.play_write_done);
	for (int i = 0; i < SENDS; i++)
		if (got[i] != sends[i].bytes || (int)late[i] != sends[i].is_late)
			fail("send %d: %llu bytes, %u times late", i, (unsigned long long)got[i], late[i]);
	if (written != 1 || others)
		fail("%u times written, %u other messages", written, others);
}

/* ---- reads with large attachments, while nothing is taken from the ring */

static void play_full_ring(const u8 *data, u8 *returns)
{
	enum { READS = 60 };
	fill_returns(returns, data, MOST_AT_ONCE, 1);
	program->bss->returns_bytes = RECORD;
	chunks = others = 0;
	for (int i = 0; i < READS; i++) {
		run_program(program->progs.measure_return, NULL, "a read");
		if (program->bss->reason_of_loss)
			fail("read %d: its frame is lost", i);
	}
	drain(count_chunks);
	if (chunks != READS || !others)
		fail("of %d reads %u came, and %u attachments were left out", READS, chunks, others);
}

/* ---- calls that write and read little */

static u8 small[4 * CHUNK];		/* the messages that came, one behind the other */
static u64 small_bytes;

static void hear_small(const void *message, u64 bytes)
{
	memcpy(small + small_bytes, message, bytes);
	small_bytes += bytes;
}

static u32 run_small(const struct bpf_program *played, u64 bytes)
{
	program->bss->returns_bytes = bytes;
	small_bytes = 0;
	return run_program(played, hear_small, "a small frame");
}

/* Where the piece of this record must be, with its bytes; returns where the next one is. */
static const u8 *need_piece(const u8 *at, u32 direction, u32 record, const struct binder_transaction_data *of)
{
	const struct piece *piece = (const void *)at;
	const u8 *bytes = (const u8 *)(piece + 1), *data = (const void *)of->data.ptr.buffer;
	if (piece->head.type != MESSAGE_PIECE || piece->head.direction != direction || piece->head.number != 1 ||
	    piece->record != record || piece->data != of->data_size || piece->offsets != of->offsets_size || piece->at ||
	    piece->bytes != of->data_size + of->offsets_size || memcmp(bytes, data, of->data_size) ||
	    memcmp(bytes + of->data_size, (const void *)of->data.ptr.offsets, of->offsets_size))
		fail("a small frame: the piece of record %u is another one", record);
	return at + MULTIPLE_OF_8(sizeof *piece + piece->bytes);
}

/* The message must have these commands first. Returns where the pieces are. */
static const u8 *need_commands(u32 direction, const u8 *commands, u32 bytes)
{
	const struct chunk *chunk = (const void *)small;
	if (chunk->head.type != MESSAGE_CHUNK || chunk->head.direction != direction || chunk->head.number != 1 ||
	    chunk->commands != bytes || chunk->base || chunk->late ||
	    chunk->next != (direction == DIRECTION_WRITE ? bytes : 0) || memcmp(chunk + 1, commands, bytes))
		fail("a small frame: its commands are others");
	return small + sizeof *chunk + MULTIPLE_OF_8(bytes);
}

/* The commands must be left to copy.bpf.h: nothing of them is in the ring, or counted. */
static void need_left(const struct bpf_program *played, const char *what, u64 bytes)
{
	if (run_small(played, bytes) != 1 || small_bytes || program->bss->attachments)
		fail("a small frame, %s: it is taken", what);
}

enum { FIRST = 4, SECOND = FIRST + RECORD + 4, SMALL_END = SECOND + RECORD };	/* where the records are that have data */
static struct binder_transaction_data *first, *second;

static void fill_small(u8 *to, u32 first_word, u32 between, u32 second_word, u8 *data)
{
	const u32 noop = BR_NOOP;
	for (u32 i = 0; i < 100; i++)
		data[i] = (u8)i;
	memcpy(to, &noop, 4);
	put_record(to + FIRST, first_word, data, 100);
	memcpy(to + FIRST + RECORD, &between, 4);
	put_record(to + SECOND, second_word, data + 7, 3);
	first = (void *)(to + FIRST + 4);
	second = (void *)(to + SECOND + 4);
	first->offsets_size = 16;
	first->data.ptr.offsets = (u64)data + 50;
}

/* The message must have these commands, the piece of the first record and, if it has that, the one of the second, and no
 * more. */
static void need_message(u32 direction, const u8 *commands, u32 bytes, int has_second)
{
	const u8 *at = need_piece(need_commands(direction, commands, bytes), direction, FIRST, first);
	if (has_second)
		at = need_piece(at, direction, SECOND, second);
	if (MULTIPLE_OF_8(small_bytes) != (u64)(at - small))
		fail("a small frame: its message has %llu bytes", (unsigned long long)small_bytes);
}

static void play_small_read(u8 *data, u8 *returns)
{
	const struct bpf_program *played = program->progs.play_small_read;
	const u32 noop = BR_NOOP;
	fill_small(returns, BR_TRANSACTION, BR_TRANSACTION_COMPLETE, BR_REPLY, data);
	program->bss->returns_from = (u64)returns;
	if (run_small(played, SMALL_END) || program->bss->attachments != 2)
		fail("a small read is not taken");
	need_message(DIRECTION_READ, returns, SMALL_END, 1);
	need_left(played, "cut in a record", SMALL_END - 1);
	second->data_size = 1 << 14;
	need_left(played, "with much data", SMALL_END);
	second->data_size = 3;
	second->data.ptr.buffer = (u64)memory_that_is_away(4096);
	need_left(played, "with data that is not there", SMALL_END);
	for (u32 i = 0; i < 17; i++)
		memcpy(returns + 4 * i, &noop, 4);
	need_left(played, "of many records", 17 * 4);
	if (run_small(played, 16 * 4))
		fail("a small read of as many records as are looked at is not taken");
	need_commands(DIRECTION_READ, returns, 16 * 4);
	need_left(played, "of many bytes", 516);
}

/* Data that is not there is left to the next run of a program, and what is behind it too. */
static void play_small_write(u8 *data, u8 *commands)
{
	const struct bpf_program *played = program->progs.play_small_write;
	fill_small(commands, BC_TRANSACTION, BC_ENTER_LOOPER, BC_REPLY, data);
	if (run_small(played, SMALL_END) || program->bss->attachments != 2 || program->bss->bytes_looked_at != SMALL_END)
		fail("a small write is not taken");
	need_message(DIRECTION_WRITE, commands, SMALL_END + BEYOND_END, 1);
	second->data.ptr.buffer = (u64)memory_that_is_away(4096);
	if (run_small(played, SMALL_END) || program->bss->attachments != 1 || program->bss->bytes_looked_at != SECOND)
		fail("a small write without some data is not taken");
	need_message(DIRECTION_WRITE, commands, SMALL_END + BEYOND_END, 0);
	if (run_small(played, SECOND + 5) || program->bss->bytes_looked_at != SECOND || run_small(played, 512))
		fail("a small write whose last command is cut is not taken");
	need_commands(DIRECTION_WRITE, commands, 512 + BEYOND_END);
	need_left(played, "of many bytes", 513);
}

/* ---- a command line */

static char line[COMMAND_BYTES];	/* that came last; empty if none came */

static void hear_line(const void *message, u64 bytes)
{
	const struct command *heard = message;
	if (heard->head.type != MESSAGE_COMMAND || bytes < sizeof *heard || !heard->bytes)
		fail("a message that is no command line");
	memcpy(line, heard->text, sizeof line);
}

/* Looks at the command line of this process. */
static void look(const char *what, const char *due)
{
	line[0] = 0;
	run_program(program->progs.play_look, hear_line, "a command line");
	if (strcmp(line, due))
		fail("a command line %s: '%s' came, and not '%s'", what, line, due);
}

/* The page of the command line is taken away, as if it was swapped out. It may also have what the first thread needs,
 * which therefore waits for this thread. */
static void *play_lines(void *own_line)
{
	u8 *page = (u8 *)((uintptr_t)own_line & ~(uintptr_t)4095);
	strcpy(own_line, "first");
	look("at first", "first");
	look("that is the same", "");
	mprotect(page, 4096, PROT_NONE);
	look("that is away", "");
	mprotect(page, 4096, PROT_READ | PROT_WRITE);
	look("that is there again", "");
	strcpy(own_line, "second");
	look("that is another one", "second");
	return NULL;
}

/* ---- what --only asks of a process */

static u32 is_wanted(const struct bpf_map *names, const void *key, u64 bytes)
{
	u32 one = 1;
	if (bpf_map__update_elem(names, key, bytes, &one, sizeof one, BPF_ANY))
		fail("--only: a name can't be kept");
	u32 wanted = run_program(program->progs.play_wanted, NULL, "--only");
	if (bpf_map__delete_elem(names, key, bytes, 0))
		fail("--only: a name can't be removed");
	return wanted;
}

static u32 is_called(const char *name)
{
	char key[CALLED_BYTES] = "";
	strncpy(key, name, sizeof key - 1);
	return is_wanted(program->maps.wanted_names, key, sizeof key);
}

/* The process is called by its first thread, and by its program without folders. It is a user's. */
static void play_called(char *own_line)
{
	u32 user = geteuid(), other = user + 1;
	if (!is_called("copying") || is_called("copyin") || is_called("copying2"))
		fail("--only: the name of the first thread");
	strcpy(own_line, "/x/pro");
	if (!is_called("pro") || is_called("x") || is_called("/x/pro") || is_called("pr"))
		fail("--only: the name of the program");
	if (!is_wanted(program->maps.wanted_users, &user, sizeof user) ||
	    is_wanted(program->maps.wanted_users, &other, sizeof other))
		fail("--only: the user");
}

/* ---- the stack of a call */

static const struct stack *stack;

static void hear_stack(const void *message, u64 bytes)
{
	const struct stack *heard = message;
	static struct stack kept;
	if (heard->head.type != MESSAGE_STACK || bytes < sizeof *heard - (MOST_OF_STACK - heard->count) * sizeof(u64))
		fail("a message that is no stack");
	memcpy(&kept, heard, sizeof *heard - (MOST_OF_STACK - heard->count) * sizeof(u64));
	stack = &kept;
}

/* Runs the program in so many calls of this function, which keeps its frame pointer. */
__attribute__((noinline, optimize("no-omit-frame-pointer", "no-optimize-sibling-calls")))
static long run_deep(u32 depth, union bpf_attr *run)
{
	long error = depth ? run_deep(depth - 1, run) : syscall(SYS_bpf, BPF_PROG_TEST_RUN, run, sizeof *run);
	asm volatile("" : "+r"(error));
	return error;
}

/* As many functions as a stack has are in it, and all but the first one are where run_deep goes on. */
static void measure_stack(u32 rounds)
{
	u64 *took = allocate(rounds * sizeof *took);
	for (u32 i = 0; i < rounds; i++) {
		union bpf_attr run = { .test = { .prog_fd = (u32)bpf_program__fd(program->progs.measure_stack) } };
		stack = NULL;
		long error = run_deep(2 * MOST_OF_STACK, &run);
		drain(hear_stack);
		if (error || run.test.retval || !stack || stack->count != MOST_OF_STACK ||
		    stack->process != (u32)getpid() || !stack->start)
			fail("stack: error %ld, %u functions", error, stack ? stack->count : 0);
		for (u32 at = 2; at < MOST_OF_STACK; at++)
			if (stack->addresses[at] != stack->addresses[1] || stack->addresses[at] - (u64)run_deep > 256)
				fail("stack: function %u is at 0x%llx", at, (unsigned long long)stack->addresses[at]);
		took[i] = program->bss->took;
	}
	tell_times("the stack of a call of as many functions as are taken", took, rounds);
}

/* ---- openings */

static void play_file(const struct bpf_program *played, u64 file)
{
	program->bss->played_file = file;
	run_program(played, NULL, "openings");
}

static void should_have(const char *what, u32 ours, u32 all)
{
	u32 came = program->bss->shares[(u32)getpid() % SHARES].openings;
	if (came != ours || program->bss->opening_count != all)
		fail("openings %s: %u of the process and %u in all, expected %u and %u", what, came,
		     program->bss->opening_count, ours, all);
}

/* A child of a process that has its whole share has one of its own. */
static void play_child(u64 file)
{
	int status;
	pid_t child = fork();
	if (child == 0) {
		play_file(program->progs.play_open, file);
		should_have("of a child", 1, SHARE_OF_OPENINGS + 1);
		exit(0);
	}
	if (child < 0 || waitpid(child, &status, 0) != child || status)
		fail("openings of a child");
}

/* A process gets its share, and no more; what it closes it may open again, and what its child had is given back too
 * when the child is gone. */
static void play_openings(void)
{
	const struct bpf_program *opens = program->progs.play_open, *closes = program->progs.play_release;
	u64 file = 8;
	for (u32 i = 0; i < SHARE_OF_OPENINGS + 10; i++)
		play_file(opens, file + 8 * i);
	should_have("beyond the share", SHARE_OF_OPENINGS, SHARE_OF_OPENINGS);
	play_file(closes, file);
	play_file(closes, file);
	should_have("after one is closed", SHARE_OF_OPENINGS - 1, SHARE_OF_OPENINGS - 1);
	play_file(opens, file);
	play_file(opens, file);
	should_have("after one is opened again", SHARE_OF_OPENINGS, SHARE_OF_OPENINGS);
	play_child(4);
	play_file(closes, 4);
	for (u32 i = 0; i < SHARE_OF_OPENINGS + 10; i++)
		play_file(closes, file + 8 * i);
	should_have("after all are closed", 0, 0);
}

/* ---- numbers: each is given once, none is left out, and a processor gets rising ones */

enum { TAKERS = 4, RUNS = 300, AT_ONCE = 512, MOST_NUMBERS = 1 << 21, TICKETS = 1 << 20 };

static struct ring tickets;		/* of older kernels */
static u32 takers;

static void make_room(void)
{
	if (tickets.size)
		ring_drain(&tickets, count);
}

static void take_numbers(u32 runs)
{
	for (u32 i = 0; i < runs; i++)
		if (run_program(program->progs.play_numbers, NULL, "numbers"))
			fail("numbers can't be taken");
}

static void *take_beside_others(void *unused)
{
	take_numbers(RUNS);
	__atomic_fetch_sub(&takers, 1, __ATOMIC_SEQ_CST);
	return unused;
}

static void take_at_once(void)
{
	pthread_t threads[TAKERS];
	takers = TAKERS;
	for (u32 i = 0; i < TAKERS; i++)
		if (pthread_create(&threads[i], NULL, take_beside_others, NULL))
			fail("no thread");
	while (__atomic_load_n(&takers, __ATOMIC_SEQ_CST))
		make_room();
	for (u32 i = 0; i < TAKERS; i++)
		pthread_join(threads[i], NULL);
}

/* Also more than older kernels give before there is room for more. */
static void play_numbers(void)
{
	struct bpf_map *map = bpf_object__find_map_by_name(program->obj, "tickets_of_number");
	u64 all = TICKETS + 2 * AT_ONCE + TAKERS * RUNS * AT_ONCE;
	if (map && ring_open(&tickets, bpf_map__fd(map), bpf_map__max_entries(map)))
		fail("the ring of tickets can't be mapped");
	const u64 *given = mmap(NULL, MOST_NUMBERS * sizeof *given, PROT_READ, MAP_SHARED,
				bpf_map__fd(program->maps.given), 0);
	if (given == MAP_FAILED)
		fail("the counts of numbers can't be mapped");
	take_numbers(TICKETS / AT_ONCE + 2);
	u64 refused = program->bss->calls_without_room;
	if (given[0] != refused || (refused != 0) != (tickets.size != 0))
		fail("%llu numbers were refused, and %llu are counted", (unsigned long long)given[0],
		     (unsigned long long)refused);
	make_room();
	take_at_once();
	if (program->bss->falling || given[0] != refused || given[all - refused + 1])
		fail("%llu numbers fall, %llu were refused", (unsigned long long)program->bss->falling,
		     (unsigned long long)given[0]);
	for (u32 number = 1; number <= all - refused; number++)
		if (given[number] != 1)
			fail("number %u was given %llu times", number, (unsigned long long)given[number]);
}

int main(int words, char **word)
{
	u32 rounds = words > 1 ? (u32)atoi(word[1]) : 400;
	room = 64 << 20;
	program = copying__open();
	if (!program)
		fail("the program can't be opened");
	bpf_program__set_autoload(program->progs.look_at_preemption, false);
	bpf_map__set_max_entries(program->maps.scratches, (u32)libbpf_num_possible_cpus());
	bpf_map__set_max_entries(program->maps.stack_scratches, (u32)libbpf_num_possible_cpus());
	program->rodata->takes_stacks = 1;
	if (copying__load(program) || ring_open(&ring, bpf_map__fd(program->maps.ring), room))
		fail("the program can't be loaded: root is needed");

	u8 *data = memory(MOST_ATTACHED), *commands = memory(MOST_COMMANDS + 4096), *returns = memory(MOST_RETURNS);
	program->bss->commands_from = (u64)commands;
	program->bss->first_word = BC_TRANSACTION;
	play_numbers();
	play_openings();
	play(commands);
	play_full_ring(data, returns);
	play_small_read(data, returns);
	play_small_write(data, commands);
	pthread_t thread;
	if (strlen(word[0]) < sizeof "second" || pthread_create(&thread, NULL, play_lines, word[0]) ||
	    pthread_join(thread, NULL))
		fail("no command line that can be written over, or no thread");
	play_called(word[0]);
	put_record(commands, BC_TRANSACTION, data, MOST_AT_ONCE);
	printf("%-66s %8s %8s %8s\n", "microseconds", "least", "median", "of 10, 9");
	measure("a write's next bytes, and the largest attachment", program->progs.measure_command, rounds,
		MOST_AT_ONCE + CHUNK * 8, 1);
	fill_returns(returns, data, MOST_AT_ONCE, 1);
	measure("the longest read, with the largest attachment", program->progs.measure_return, rounds,
		MOST_AT_ONCE + MOST_RETURNS, 1);
	fill_returns(returns, data, MOST_AT_ONCE / MOST_ATTACHMENTS, MOST_ATTACHMENTS);
	measure("the longest read, with as many attachments as are taken", program->progs.measure_return, rounds,
		MOST_AT_ONCE + MOST_RETURNS, MOST_ATTACHMENTS);
	measure_stack(rounds);
	return 0;
}
