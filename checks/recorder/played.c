/* What is to come of frames that were played, and whether it did: see played.h. */
#define _GNU_SOURCE
#include "played.h"
#include "kit.h"
#include <stdlib.h>
#include <string.h>
#include <sys/mman.h>

#define MOST_NUMBERS (1u << 24)
#define FRAME_HEAD 32u

/* Not in memory of malloc, which is counted. */
static struct number {
	struct due due;
	u8 is_due, is_tainted, is_in_capture, is_in_list, is_lost;
} *numbers;

static struct number *number_of(u64 number)
{
	static struct number other;
	if (!numbers)
		numbers = mmap(NULL, MOST_NUMBERS * sizeof *numbers, PROT_READ | PROT_WRITE,
			       MAP_PRIVATE | MAP_ANONYMOUS | MAP_NORESERVE, -1, 0);
	if (numbers == MAP_FAILED)
		fail("no memory for what is due");
	return number < MOST_NUMBERS ? numbers + number : &other;
}

struct due played_due(const void *commands, u64 bytes)
{
	struct due due = { .sum = 0xcbf29ce484222325u };
	played_add(&due, commands, bytes);
	return due;
}

void played_add(struct due *due, const void *bytes, u64 count)
{
	for (u64 i = 0; i < count; i++)
		due->sum = (due->sum ^ ((const u8 *)bytes)[i]) * 0x100000001b3u;
	due->bytes += count;
}

void played_expect(u64 number, struct due due)
{
	number_of(number)->due = due;
	number_of(number)->is_due = 1;
}

void played_taint(u64 number)
{
	number_of(number)->is_tainted = 1;
}

/* Reads the frames of a file, each of a higher number than the one before it. */
static u64 read_capture(const char *path, u64 before)
{
	u64 bytes, at = 16;
	const u8 *file = whole_file(path, &bytes);
	while (at + FRAME_HEAD <= bytes) {
		u64 number;
		u64 length = (u64)load_u32(file + at + 20) + load_u32(file + at + 24);
		memcpy(&number, file + at, sizeof number);
		struct number *n = number_of(number);
		struct due came = played_due(file + at + FRAME_HEAD, length <= bytes - at - FRAME_HEAD ? length : 0);
		should(number > before, "a number that does not rise", (double)number);
		should(!n->is_due || n->is_tainted || (came.sum == n->due.sum && came.bytes == n->due.bytes),
		       "a frame with other bytes", (double)number);
		n->is_in_capture = 1;
		before = number;
		at += FRAME_HEAD + length;
	}
	should(at == bytes, "a file with more or fewer bytes than its frames", (double)bytes);
	free((void *)(uintptr_t)file);
	return before;
}

static void tell(u64 number, int is_lost)
{
	struct number *n = number_of(number);
	should(!n->is_in_list, "a number that two lines tell", (double)number);
	n->is_in_list = 1;
	n->is_lost = (u8)is_lost;
}

static void read_list(const char *path)
{
	u64 bytes;
	char *text = whole_file(path, &bytes), *rest = text;
	should(strlen(text) == bytes && !memmem(text, bytes, "\xc2\x85", 2), "a list with signs", (double)bytes);
	for (char *line; (line = strsep(&rest, "\n")) != NULL;) {
		char *at = line;
		strtoull(line, &at, 10);
		if (!strncmp(at, " lost ", 6)) {
			tell(strtoull(at + 6, NULL, 10), 1);
		} else if (!strncmp(at, " frames ", 8)) {
			u64 number = strtoull(at + 8, &at, 10);
			for (tell(number, 0); *at == ' '; tell(++number, 0))
				strtoll(at, &at, 10);
		}
	}
	free(text);
}

static void judge_number(u64 number, int all_are_there)
{
	const struct number *n = number_of(number);
	should(n->is_in_list, "a number that no line tells", (double)number);
	should(!n->is_in_list || n->is_lost == !n->is_in_capture, "a frame that is in the list and not in the capture, or lost and in it",
	       (double)number);
	should(!all_are_there || !n->is_due || n->is_tainted || !n->is_lost, "a frame that was lost", (double)number);
}

void played_judge(const char *out, u32 files_made, u32 files_kept, u64 last, int all_are_there)
{
	char path[4096];
	u64 before = 0;
	u32 first = files_kept && files_made > files_kept ? files_made - files_kept + 1 : 1;
	for (u32 file = first; file <= files_made; file++) {
		snprintf(path, sizeof path, "%s-%u.cap", out, file);
		before = read_capture(path, before);
		snprintf(path, sizeof path, "%s-%u.side", out, file);
		if (files_kept)
			read_list(path);
	}
	snprintf(path, sizeof path, "%s.side", out);
	if (!files_kept)
		read_list(path);
	for (u64 number = 1; number <= last && !files_kept && number < MOST_NUMBERS; number++)
		judge_number(number, all_are_there);
}
