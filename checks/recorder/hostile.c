/* hostile OUT: a flight recorder's loader among processes that name handles which they do not have, and hold many
 * openings. Each file must have room for frames, whatever its side list begins with. And no memory is kept for what
 * processes have opened and closed, and for their threads, and little of the data of sends that the driver refused. See
 * loader. */
#include "frame.h"
#include "kit.h"
#include "made_frame.h"
#include "met.h"
#include "names.h"
#include "parts.h"
#include "redact.h"
#include "slice.h"
#include "window.h"
#include <malloc.h>
#include <stdio.h>
#include <stdlib.h>
#include <string.h>
#include <unistd.h>

enum {
	SIZE = 1 << 20,			/* the most bytes of a file */
	FILES = 3,
	HOST = 1, LIAR, CROWD,		/* openings, each of a thread of its own; from CROWD on are others */
	NAMED = 40000,			/* handles that the liar names */
	TOLD = 100,			/* handles of the host */
	LIARS = 64,			/* processes that name fewer each, and more in all than may be told */
	NAMED_EACH = 1000,
	MOST_TOLD = SIZE / 64,		/* handles in a side list */
	OPENINGS = 65536,		/* from before the recording */
	SILENT = 2 * OPENINGS,		/* the opening of a process that lets its reader wait */
	FIRST_GONE = 3 * OPENINGS,	/* openings that come and go, */
	GONE = 100000,			/* so many, each with a thread, a call, a handle and a command line */
	RETURNS = 2000,			/* codes of a read of the host */
	MUCH = 1000000,			/* bytes of data of a send */
	SLICE = 1000,			/* steps of the work that is done in slices */
};

static u64 last;			/* the number that was taken last */
static u32 steps;			/* of this slice */

/* In place of those of the loader, which look at the clock. */
void slice_begin(void) { steps = 0; }
int slice_is_over(void) { return ++steps > SLICE; }

/* The frame of the commands of an opening, with so many bytes of data. */
static void hear_frame(u32 direction, u32 opening, u32 bytes)
{
	static const u8 data[MUCH];
	made_frame(window_hear, head_of(MESSAGE_CHUNK, direction, ++last, opening, opening), data, bytes);
}

/* Writes what can be written. Returns how often the ring would have been looked at meanwhile. */
static int settle(void)
{
	int looks = 0;
	while (window_settle())
		looks++;
	return looks;
}

static void hear_handles(u32 opening, u32 first, u32 count)
{
	for (u32 handle = first; handle < first + count; handle++)
		made_record(BC_INCREFS, &handle, sizeof handle);
	hear_frame(DIRECTION_WRITE, opening, 0);
}

static void name_handles(u32 opening, u32 first, u32 count)
{
	hear_handles(opening, first, count);
	settle();
}

static void hear_return(void)
{
	for (u32 i = 0; i < RETURNS; i++)
		made_code(BR_NOOP);
	hear_frame(DIRECTION_READ, HOST, 0);
}

/* The host reads on until the next file is begun, and its side list has its first lines. */
static void fill_file(void)
{
	for (u32 before = parts_count(); parts_count() == before; settle())
		hear_return();
	read_side_list();
}

static void open_process(u32 opening, enum met met)
{
	made_process(opening, 1000 + opening, 1, "caller", met);
}

/* Each file but the newest one has as many frames as one without any first lines. */
static void should_fill(const char *what)
{
	u32 files = parts_count();
	u64 before = last;
	fill_file();
	u64 frames = last - before, due = SIZE / (RETURNS * sizeof(u32) + 32);
	should(parts_count() == files + 1 && frames + 2 > due && frames < due + 2, what, (double)frames);
}

static void a_liar(void)
{
	name_handles(HOST, 1, TOLD);
	name_handles(LIAR, 1, NAMED);
	fill_file();
	should(times(" handle 0 1001 ") == TOLD && times(" handle 0 1002 ") == 0, "handles that are told",
	       times(" handle "));
	should(times(" handles 0 1002 why=too-many\n") == 1 && times(" handles ") == 1,
	       "processes whose handles are not told", times(" handles "));
	should(times("process 0 1001 pid=1001 start=1 opening=1 met=before-file ") == 1, "a process with handles", 0);
	should(times("process 0 1002 pid=1002 start=1 opening=2 met=in-mid-life ") == 1, "a process without handles", 0);
	should_fill("frames of a file beside a process that names many handles");
}

static void many_liars(void)
{
	for (u32 i = 0; i < LIARS; i++)
		open_process(CROWD + i, MET_FROM_START);
	for (u32 i = 0; i < LIARS; i++)
		name_handles(CROWD + i, 1 + i, NAMED_EACH);
	fill_file();
	should(times(" handle ") <= MOST_TOLD, "handles of all processes", times(" handle "));
	should(times(" handle 0 1001 ") == TOLD, "handles of a process that has few", times(" handle 0 1001 "));
	should(times(" handles ") + times(" met=before-file ") == LIARS + 2, "processes whose handles are not told",
	       times(" handles "));
	should_fill("frames of a file beside many processes that name handles");
}

/* A send with so much data, and what its thread reads then: nothing if that is 0. */
static void send_data(u32 bytes, u32 answer)
{
	made_send(BC_TRANSACTION, (struct binder_transaction_data){ .data_size = bytes });
	hear_frame(DIRECTION_WRITE, HOST, bytes);
	if (answer) {
		made_code(BR_NOOP);
		made_code(answer);
		hear_frame(DIRECTION_READ, HOST, 0);
	}
	settle();
}

/* How much data of such a send is written. */
static u32 left_of_send(u32 bytes, u32 answer)
{
	u64 entries = frame_entries_written();
	send_data(bytes, answer);
	if (!answer) {
		should(window_last() == last - 1, "a send that is written before what came of it is known", bytes);
		usleep(100000);
		settle();
	}
	should(window_last() == last, "a send that is not written", (double)last);
	return frame_entries_written() > entries ? bytes : 0;
}

/* Of a send that the driver refused, much data is left out, and a line says so; and no data of another one. */
static void refused_sends(void)
{
	char line[64];
	should(left_of_send(MUCH, BR_FAILED_REPLY) == 0, "much data of a send that was refused", MUCH);
	snprintf(line, sizeof line, " unattached %llu at=0 why=refused\n", (unsigned long long)last - 1);
	read_side_list();
	should(times(line) == 1, "lines of a send that was refused", times(" unattached "));
	should(left_of_send(MUCH, BR_DEAD_REPLY) == 0, "much data of a send to a process that is dead", MUCH);
	should(left_of_send(4096, BR_FAILED_REPLY) == 4096, "little data of a send that was refused", 4096);
	should(left_of_send(MUCH, BR_TRANSACTION_COMPLETE) == MUCH, "much data of a send", MUCH);
	should(left_of_send(MUCH, 0) == MUCH, "much data of a send of which is not known what came", MUCH);
}

static void come_and_go(u32 opening)
{
	struct command command = { .head = head_of(MESSAGE_COMMAND, 0, last, opening, opening), .user = 10123,
				   .bytes = COMMAND_BYTES };
	open_process(opening, MET_FROM_START);
	window_hear(&command, sizeof command);
	hear_handles(opening, 1, 1);
	made_event(window_hear, head_of(MESSAGE_CLOSED, 0, last, opening, 0), 0, 0, 0);
	made_event(window_hear, head_of(MESSAGE_ENDED, 0, last, 1, opening), opening, opening, 1);
	settle();
}

static void comings_and_goings(void)
{
	size_t before = mallinfo2().uordblks;
	for (u32 i = 0; i < GONE; i++)
		come_and_go(FIRST_GONE + i);
	double more = ((double)mallinfo2().uordblks - (double)before) / (1 << 20);
	should(more < 2, "MiB that are kept for openings that were closed", more);
}

/* While the first lines are written, the ring is looked at. Who comes then is told after them: whoever reads several lists
 * takes the first lines of the first list alone. */
static void many_openings(void)
{
	u32 late = CROWD + LIARS + OPENINGS;
	char line[64];
	for (u32 i = 0; i < OPENINGS; i++)
		open_process(CROWD + LIARS + i, MET_IN_MID_LIFE);
	for (u32 before = parts_count(); parts_count() == before; window_settle())
		hear_return();
	open_process(late, MET_FROM_START);
	hear_handles(late, 1, 1);
	int looks = settle();
	should(looks + 2 > OPENINGS / SLICE && looks < 4 * OPENINGS / SLICE, "looks at the ring during the first lines", looks);
	read_side_list();
	snprintf(line, sizeof line, "process 0 %u ", 1000 + late);
	char *came = strstr(list, line), *file = strstr(list, " file ");
	should(times(" met opening=") == OPENINGS, "openings that are told", times(" met opening="));
	should(times(line) == 1 && came > file, "who comes during the first lines", times(line));
	should_fill("frames of a file beside many openings");
}

/* In place of the one of the loader: this process lets its reader wait. */
u64 __wrap_process_read(u32 process, u64 start, const char *name, char *text, u64 room)
{
	(void)start, (void)name, (void)text, (void)room;
	while (process)
		pause();
	return 0;
}

/* A process whose command line nobody can read holds up neither the loader nor its end, and is told as one without. */
static void a_silent_process(void)
{
	struct command command = { .head = head_of(MESSAGE_COMMAND, 0, last, SILENT, SILENT), .user = 10123 };
	u64 began = now();
	open_process(SILENT, MET_FROM_START);
	window_hear(&command, sizeof command);
	name_handles(SILENT, 1, 1);
	names_look();
	should(now() - began < 500000000u, "seconds for a process that is silent", (double)(now() - began) / 1e9);
	read_side_list();
	should(times(" uid=10123 ") == 0, "command lines before the end", times(" uid=10123 "));
	names_end();
	should(now() - began < 3000000000u, "seconds for the end", (double)(now() - began) / 1e9);
	read_side_list();
	should(times(" uid=10123 name=\n") == 1, "a command line that nobody can read", times(" uid=10123 "));
}

int main(int count, char **words)
{
	if (count != 2 || parts_begin(words[1], SIZE, FILES))
		fail("usage: hostile OUT");
	redact_begin(0);
	met_keep(SIZE);
	window_bound_refused();
	open_process(HOST, MET_FROM_START);
	open_process(LIAR, MET_FROM_START);
	a_liar();
	many_liars();
	refused_sends();
	comings_and_goings();
	many_openings();
	a_silent_process();
	if (parts_end())
		fail("the files can't be written");
	return failed;
}
