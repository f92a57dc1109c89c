/* maps OUT: gives the recorder's loader stacks, of this process and of others that are not there, and lets it read
 * whole and damaged files. See maps. */
#define _GNU_SOURCE
#include "code_file.h"
#include "kit.h"
#include "made_frame.h"
#include "maps.h"
#include "parts.h"
#include "redact.h"
#include "side.h"
#include "stacks.h"
#include "window.h"
#include <stdio.h>
#include <stdlib.h>
#include <string.h>
#include <sys/mman.h>
#include <unistd.h>

enum {
	DAMAGED = 20000,	/* files */
	MANY = 40000,		/* different stacks */
	STRANGER = 4194303,	/* the id of no process */
};

static u64 last;

/* ---- files */

static int file_with(const char *bytes, u64 count)
{
	static int file = -1;
	if (file < 0)
		file = memfd_create("damaged", 0);
	if (file < 0 || ftruncate(file, 0) || pwrite(file, bytes, count, 0) != (ssize_t)count)
		fail("no file can be made");
	return file;
}

static int is_same(const struct code_file *one, const struct code_file *other)
{
	return one->build_id_bytes == other->build_id_bytes && !memcmp(one->build_id, other->build_id, MOST_BUILD_ID) &&
	       one->segment_count == other->segment_count;
}

/* A damaged file has a build-id or none, and is read in a moment. The sanitizers see what is read beyond its end. */
static void damaged_files(const char *self)
{
	u64 bytes;
	char *whole = whole_file(self, &bytes), *made = allocate(bytes);
	struct code_file good = code_file_read(file_with(whole, bytes));
	double began = processor_seconds();
	int same = 0;
	should(good.build_id_bytes == 20 && good.segment_count == 1, "the build-id of this program",
	       good.build_id_bytes);
	srand(7);
	for (int i = 0; i < DAMAGED; i++) {
		u64 count = i % 2 ? bytes : (u64)rand() % 4096;
		memcpy(made, whole, count);
		for (int change = rand() % 20; change >= 0 && count; change--)
			made[(u64)rand() % (count < 1024 ? count : 1024)] = (char)(rand() % 3 ? 0xff : rand());
		struct code_file found = code_file_read(file_with(made, count));
		should(found.build_id_bytes <= MOST_BUILD_ID && found.segment_count <= MOST_SEGMENTS, "a damaged file",
		       i);
		same += is_same(&found, &good);
	}
	should(same > 0 && same < DAMAGED, "damaged files like the whole one", same);
	should(processor_seconds() - began < 20, "seconds for damaged files", processor_seconds() - began);
	free(whole);
	free(made);
}

static void addresses_of_files(void)
{
	struct code_file file = { .segment_count = 2,
				  .segments = { { 0x1040, 0x500, 0x3040 }, { 0x8000, 0x100, 0x20000 } } };
	u64 address = 0;
	should(code_file_address(&file, 0x1000, 0x1000, &address) && address == 0x3000, "a map from before its code",
	       (double)address);
	should(code_file_address(&file, 0x8000, 0x1000, &address) && address == 0x20000, "a map of the second code",
	       (double)address);
	should(!code_file_address(&file, 0x4000, 0x1000, &address), "a map of no code", (double)address);
}

/* ---- stacks */

/* A write with one command and the stack of these addresses; it is finished and written. */
static void hear_call(u32 process, u64 start, u64 memory, const u64 *addresses, u32 count)
{
	struct message head = head_of(MESSAGE_STACK, DIRECTION_WRITE, ++last, 1, 1);
	struct stack stack = { .head = head, .memory = memory, .start = start, .process = process, .count = count };
	memcpy(stack.addresses, addresses, count * sizeof *addresses);
	made_record(BC_FREE_BUFFER, NULL, sizeof(u64));
	u32 bytes = made_begun(window_hear, head, NULL, 0);
	window_hear(&stack, offsetof(struct stack, addresses) + count * sizeof *addresses);
	made_written(window_hear, head, bytes);
	window_settle();
	stacks_look();
}

static void wait_for_maps(void)
{
	for (int i = 0; i < 1000 && maps_awaited(); i++) {
		usleep(1000);
		stacks_look();
	}
}

/* This process calls three times with one stack and once with another: its file and the C library's are told. */
static void own_stacks(void)
{
	u64 first[] = { (u64)(uintptr_t)&memcpy + 1, (u64)(uintptr_t)&own_start + 1, 0x10 };
	u64 other[] = { (u64)(uintptr_t)&own_start + 2 };
	for (int i = 0; i < 3; i++)
		hear_call((u32)getpid(), own_start(), 1, first, 3);
	hear_call((u32)getpid(), own_start(), 1, other, 1);
	wait_for_maps();
	read_side_list();
	should(times(" stack 1 memory=1 ") == 1 && times(" stack 2 memory=1 ") == 1 && times(" stack ") == 2,
	       "stacks of this process", times(" stack "));
	should(times(" stack=1\n") == 3 && times(" stack=2\n") == 1, "calls with a stack", times(" call "));
	should(times(" map 1 ") >= 1 && times("build-id=-") == 0, "maps of this process", times(" map 1 "));
	should(times(" name=/") && times("/maps") == 1, "the path of this program", times("/maps"));
	should(times(",0x10\n") == 1 && times(" unmapped ") == 0, "an address that is not mapped", times(" unmapped "));
}

/* A process that began at another time is another one: nothing is read of it. So is one that is not there. */
static void others_stacks(void)
{
	u64 stack[] = { (u64)(uintptr_t)&own_start };
	hear_call((u32)getpid(), own_start() + 5000000000u, 2, stack, 1);
	hear_call(STRANGER, 1, 3, stack, 1);
	wait_for_maps();
	read_side_list();
	should(times(" unmapped 2 ") == 1 && times(" unmapped 3 ") == 1 && times(" why=ended\n") == 2,
	       "processes without maps", times(" unmapped "));
	should(times(" map 2 ") + times(" map 3 ") == 0 && stacks_unmapped() == 2,
	       "maps of processes that are not there", times(" map 2 "));
}

/* A caller with ever new stacks takes bounded memory, and each call has its line. */
static void many_stacks(void)
{
	double began = processor_seconds();
	u64 stack[MOST_OF_STACK] = { 0 };
	int before = times(" call ");
	for (u64 i = 0; i < MANY; i++) {
		for (u32 at = 0; at < MOST_OF_STACK; at++)
			stack[at] = 0x1000 * i + at;
		hear_call(STRANGER, 1, 3, stack, MOST_OF_STACK);
		hear_call(STRANGER, 1, 3, stack, MOST_OF_STACK);
	}
	read_side_list();
	should(times(" call ") - before == 2 * MANY && stacks_forgotten() == 0, "calls with new stacks",
	       times(" call ") - before);
	should(mebibytes() < 600, "MiB with new stacks", mebibytes());
	should(processor_seconds() - began < 60, "seconds for new stacks", processor_seconds() - began);
}

static void begin_list(const char *out, const char *name)
{
	char path[4096];
	snprintf(path, sizeof path, "%s-%s", out, name);
	side_close();
	if (side_create(path, 0))
		fail("no side list %s", path);
}

/* A new side list has the stacks anew that calls in it have, also of calls that waited. */
static void new_list(const char *out)
{
	u64 stack[] = { (u64)(uintptr_t)&own_start + 3 };
	hear_call((u32)getpid(), own_start(), 1, stack, 1);
	wait_for_maps();
	stacks_tell_again();
	begin_list(out, "other");
	hear_call((u32)getpid(), own_start(), 1, stack, 1);
	hear_call((u32)getpid(), own_start(), 1, stack, 1);
	read_side_list();
	should(times(" stack ") == 1 && times(" map ") == 1 && times(" call ") == 2, "lines of a new side list",
	       times(" stack "));
}

/* While frames wait, more stacks come than are kept, and a new side list begins: each call has its line, or is told as
 * one whose stack was not kept. */
static void forgotten_stacks(const char *out)
{
	struct stack stack = { .head = head_of(MESSAGE_STACK, DIRECTION_WRITE, last, 1, 1), .memory = 3, .start = 1,
			       .process = STRANGER, .count = 2 };
	u32 *numbers = allocate(MANY * sizeof *numbers);
	for (u32 i = 0; i < MANY; i++) {
		stack.addresses[0] = 0x70000000 + i;
		numbers[i] = stacks_hear(&stack);
	}
	stacks_tell_again();
	begin_list(out, "third");
	for (u32 i = 0; i < MANY; i++)
		stacks_tell_call(1, i, numbers[i]);
	read_side_list();
	int forgotten = times(" unstacked 1 what=forgotten ");
	should(forgotten > 0 && forgotten == (int)stacks_forgotten(), "calls whose stack was not kept", forgotten);
	should(times(" call ") + forgotten == MANY && times(" call ") > 1000, "calls of kept stacks", times(" call "));
	should(times(" stack ") == times(" call "), "stacks that are told again", times(" stack "));
	free(numbers);
}

int main(int count, char **words)
{
	if (count != 2 || parts_begin(words[1], MOST_TOGETHER, 0))
		fail("usage: maps OUT");
	redact_begin(0);
	stacks_begin();
	made_opening(1, 1000, "caller");
	made_thread(1, 1001, 1000, "caller");
	damaged_files("/proc/self/exe");
	addresses_of_files();
	own_stacks();
	others_stacks();
	many_stacks();
	new_list(words[1]);
	forgotten_stacks(words[1]);
	stacks_end();
	return failed;
}
