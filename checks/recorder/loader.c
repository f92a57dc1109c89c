/* loader OUT: gives the recorder's loader messages of callers that hand over as much as they can. See loader. */
#define _GNU_SOURCE
#include "command.h"
#include "descriptors.h"
#include "frame.h"
#include "kit.h"
#include "made_frame.h"
#include "names.h"
#include "parts.h"
#include "redact.h"
#include "side.h"
#include "window.h"
#include <fcntl.h>
#include <stdio.h>
#include <stdlib.h>
#include <string.h>
#include <sys/resource.h>
#include <unistd.h>

enum {
	ENTRIES = 30000,	/* of one frame */
	TURNS = 3,		/* of such frames: on a busy machine one may take twice as long as another */
	LINES = 200000,		/* of the side list, while a frame waits */
	FRAMES = 500,		/* of 1 MiB each, while another one waits */
	KEPT = 100,		/* of these before a write ends that they wait for */
	DATA = 1 << 20,
	SHARING = 2000,		/* frames in as few lines as there can be, */
	FIRST_SHARING = 1000000,
	LATER = 1234567890,	/* each so many nanoseconds later than the one before it */
};

static u64 last;		/* the number that was taken last */

static struct message head(u32 type, u64 number, u32 thread)
{
	return head_of(type, DIRECTION_WRITE, number, 1, thread);
}

/* The commands of a write: oneway sends with so many bytes of data each. */
static void hear_commands(u64 number, u32 thread, u32 records, u64 each)
{
	for (u32 i = 0; i < records; i++)
		made_send(BC_TRANSACTION, (struct binder_transaction_data){ .flags = TF_ONE_WAY, .data_size = each });
	made_begun(window_hear, head(MESSAGE_CHUNK, number, thread), NULL, 0);
}

static void hear_data(u64 number, u32 thread, u32 record, u32 bytes)
{
	struct piece *piece = allocate(sizeof *piece + bytes);
	*piece = (struct piece){ .head = head(MESSAGE_PIECE, number, thread), .record = record, .data = bytes,
				 .bytes = bytes };
	window_hear(piece, sizeof *piece + bytes);
	free(piece);
}

static void hear_written(u64 number, u32 thread, u64 consumed)
{
	made_written(window_hear, head(MESSAGE_WRITTEN, number, thread), consumed);
}

/* A whole write of the second thread, and what can be written then. */
static void hear_much(void)
{
	hear_commands(++last, 2, 1, DATA);
	hear_data(last, 2, 0, DATA);
	hear_written(last, 2, RECORD);
	window_settle();
}

/* Puts together one frame of very many entries. Returns the seconds that it takes. */
static double seconds_for_entries(void)
{
	double began = processor_seconds();
	hear_commands(++last, 1, ENTRIES, 8);
	for (u32 i = 0; i < ENTRIES; i++)
		hear_data(last, 1, i * RECORD, 8);
	hear_written(last, 1, (u64)ENTRIES * RECORD);
	window_settle();
	return processor_seconds() - began;
}

/* One frame of very many entries is put together in a moment. */
static void many_entries(void)
{
	double least = seconds_for_entries();
	for (u32 turn = 1; turn < TURNS; turn++) {
		double took = seconds_for_entries();
		least = took < least ? took : least;
	}
	should(frame_entries_written() == (u64)TURNS * ENTRIES, "entries of all turns", (double)frame_entries_written());
	should(least < 0.2, "seconds for the entries of one frame", least);
}

/* Processes that end while a write waits: each has a line that waits with it. */
static void many_lines(void)
{
	double began = processor_seconds();
	hear_commands(++last, 1, 1, 0);
	for (u32 i = 0; i < LINES; i++)
		made_event(window_hear, head(MESSAGE_ENDED, last, 0), 0, i + 1, 1);
	hear_written(last, 1, RECORD);
	window_settle();
	double took = processor_seconds() - began;
	should(took < 1, "seconds for the lines of one frame", took);
	should(window_lost() == 0, "frames lost", (double)window_lost());
}

/* While one write waits, the others hand over 500 MiB: it is given up, and no other frame is lost. */
static void much_memory(void)
{
	hear_commands(++last, 1, 1, 0);
	for (u32 i = 0; i < FRAMES; i++)
		hear_much();
	while (window_settle())
		continue;
	should(mebibytes() < 320, "MiB of memory at most", mebibytes());
	should(mebibytes() > 200, "MiB of memory at least", mebibytes());
	should(window_waiting() == 0 && window_last() == last, "frames that wait", (double)window_waiting());
	should(window_lost() == 1 && window_lost_because(REASON_HELD_TOO_LONG) == 1, "frames lost",
	       (double)window_lost());
	should(window_frames() == FRAMES + TURNS + 1, "frames", (double)window_frames());
}

/* When a write ends after which many frames wait, the ring is looked at again before all of them are written. */
static void long_settling(void)
{
	double longest = 0;
	u64 frames = window_frames();
	int more = 1;
	hear_commands(++last, 1, 1, 0);
	u64 held = last;
	for (u32 i = 0; i < KEPT; i++)
		hear_much();
	should(window_frames() == frames, "frames written before their time", (double)(window_frames() - frames));
	hear_written(held, 1, RECORD);
	while (more) {
		double began = processor_seconds();
		more = window_settle();
		double took = processor_seconds() - began;
		longest = took > longest ? took : longest;
	}
	should(longest < 0.2, "seconds at a time for frames that waited", longest);
	should(window_frames() == frames + KEPT + 1, "frames that waited", (double)(window_frames() - frames));
}

static void hear_command(u32 opening, const char *text, u32 bytes, u32 claimed)
{
	struct command command = { .head = head_of(MESSAGE_COMMAND, DIRECTION_WRITE, last, opening, 0), .user = 10123,
				   .bytes = claimed };
	memcpy(command.text, text, bytes);
	window_hear(&command, sizeof command);
}

static void wait_for_lines(void)
{
	for (int i = 0; i < 5000 && command_awaited(); i++) {
		usleep(1000);
		names_look();
	}
}

/* Whether the side list has this line, after its time. */
static int has_line(const char *line)
{
	read_side_list();
	return strstr(list, line) != NULL;
}

/* Whether the side list ends with this. */
static int is_last_line(const char *line)
{
	read_side_list();
	u64 bytes = strlen(list), length = strlen(line);
	return bytes > length && !strcmp(list + bytes - length, line);
}

/* What is kept of a command line if payloads are redacted: what the program is called. */
static void redacted_command(const char *text, const char *due)
{
	char line[2 * COMMAND_BYTES];
	u32 bytes = (u32)strlen(text) + 1;
	hear_command(1, "another", 7, 7);
	hear_command(1, text, bytes < COMMAND_BYTES ? bytes : COMMAND_BYTES, bytes);
	snprintf(line, sizeof line, " uid=10123 name=%s\n", due);
	should(is_last_line(line), text, (double)bytes);
}

/* A program may write a title over its command line, which is one word then, and may be in a folder with any name. */
static void redacted_commands(void)
{
	char longest[COMMAND_BYTES + 32] = "/";
	memset(longest + 1, 'a', COMMAND_BYTES);
	hear_command(1, "first\0SECRET", 12, 12);
	should(has_line(" uid=10123 name=first\n"), "what is kept of a command line", 0);
	redacted_command("postgres: alice SECRET 10.0.0.5 SELECT", "postgres:");
	redacted_command("title:\tSECRET", "title:");
	redacted_command("com.example.mail:remote", "com.example.mail:remote");
	redacted_command("/usr/SECRET/program", "/program");
	redacted_command("./SECRET/other", "/other");
	redacted_command("/usr/a SECRET/third", "");
	redacted_command("shell: me@SECRET/0", "");
	redacted_command(longest, "");
	should(!has_line("SECRET"), "secrets of command lines", 0);
}

/* What the side list has of this process's command line, or what is kept of it if payloads are redacted. */
static void own_line(char *line, int is_redacted)
{
	u64 bytes;
	char *text = whole_file("/proc/self/cmdline", &bytes);
	int head = sprintf(line, " uid=10123 name=");
	if (is_redacted)
		strcpy(line + head, strrchr(text, '/'));
	else
		clean_bytes(line + head, text, (u32)(bytes < COMMAND_BYTES ? bytes - 1 : COMMAND_BYTES));
	strcat(line, "\n");
	free(text);
}

/* A process with this id that began at this time calls through a new opening. */
static void open_process(u32 opening, u32 process, u64 start)
{
	made_process(opening, process, start, "reader", MET_FROM_START);
	names_of(opening, opening, now());
}

/* What the program in the kernel could not read is read from the process, if that is still the one that called, and no
 * other line came meanwhile. */
static void lines_of_processes(u32 opening, int is_redacted)
{
	static char own[4 * COMMAND_BYTES + 64];
	own_line(own, is_redacted);
	open_process(opening, (u32)getpid(), own_start());
	hear_command(opening, "", 0, 0);
	wait_for_lines();
	should(is_last_line(own), own, is_redacted);
	hear_command(opening, "", 0, 0);
	hear_command(opening, "newer", 5, 5);
	wait_for_lines();
	should(is_last_line(" uid=10123 name=newer\n"), "a command line that came meanwhile", is_redacted);
	open_process(opening + 1, (u32)getpid(), own_start() + 5000000000u);
	hear_command(opening + 1, "", 0, 0);
	wait_for_lines();
	should(is_last_line(" uid=10123 name=\n"), "a command line of another process", is_redacted);
}

/* The longest command line, of bytes that are written as four each; one that is said to be longer; and one that comes
 * when the opening has its number, and again. */
static void command_lines(void)
{
	char control[COMMAND_BYTES], due[4 * COMMAND_BYTES + 64] = " command 0 1000 after=";
	memset(control, 1, sizeof control);
	hear_command(1, control, sizeof control, 9999);
	sprintf(due + strlen(due), "%llu uid=10123 name=", (unsigned long long)last);
	for (u32 i = 0; i < COMMAND_BYTES; i++)
		strcat(due, "\\x01");
	strcat(due, "\n");
	hear_command(1, "a\n \\\0b\0\0", 8, 8);
	hear_command(1, "a\n \\\0b", 6, 6);
	should(has_line(due), "the longest command line", (double)strlen(due));
	should(has_line(" uid=10123 name=a\\x0a \\x5c\\x00b\n"), "a command line with NULs", 0);
	hear_command(1, "\xc3\x85\xc2\x85\xc2\xa0\xc2", 7, 7);
	should(has_line(" uid=10123 name=\xc3\x85\\x85\xc2\xa0\xc2\n"), "a command line with control characters of UTF-8", 0);
	should(!has_line("name=a\\x0a \\x5c\\x00b\\x00"), "NULs at the end of a command line", 0);
	lines_of_processes(5, 0);
	command_redact();
	lines_of_processes(7, 1);
	redacted_commands();
}

/* ---- descriptors of processes that receive some */

enum { RECEIVER = 20, GONE };		/* openings, each with a thread of the same number */

/* Data with objects, which come with the read that the thread takes next. */
static void hear_objects(struct message head, const void *data, u32 bytes, const u64 *offsets, u32 count)
{
	u32 offset_bytes = count * (u32)sizeof *offsets;
	struct piece *piece = allocate(sizeof *piece + bytes + offset_bytes);
	*piece = (struct piece){ .head = head, .data = bytes, .offsets = offset_bytes, .bytes = bytes + offset_bytes };
	piece->head.type = MESSAGE_PIECE;
	memcpy(piece + 1, data, bytes);
	memcpy((u8 *)(piece + 1) + bytes, offsets, offset_bytes);
	window_hear(piece, sizeof *piece + piece->bytes);
	free(piece);
}

static struct message next_read(u32 opening)
{
	return head_of(MESSAGE_CHUNK, DIRECTION_READ, ++last, opening, opening);
}

/* The thread takes what was made, and the frame is written. */
static void hear_read(struct message head)
{
	made_begun(window_hear, head, NULL, 0);
	window_settle();
}

static void hear_failure(u32 opening)
{
	made_code(BR_FAILED_REPLY);
	hear_read(next_read(opening));
}

/* A reply with a handle, and an object of this type at an offset. */
static void hear_object(u32 opening, u32 type, u64 offset)
{
	struct flat_binder_object objects[2] = { { .hdr = { BINDER_TYPE_HANDLE } }, { .hdr = { type } } };
	u64 offsets[] = { 0, offset };
	struct message head = next_read(opening);
	struct binder_transaction_data sizes = { .data_size = sizeof objects, .offsets_size = sizeof offsets };
	made_send(BR_REPLY, sizes);
	hear_objects(head, objects, sizeof objects, offsets, 2);
	hear_read(head);
}

/* How many lines tell of descriptors, for this reason or any. */
static int looks(const char *why)
{
	char word[32];
	int count = 0;
	read_side_list();
	snprintf(word, sizeof word, " why=%s\n", why);
	for (char *line = strstr(list, " descriptors "); line; line = strstr(line + 1, " descriptors "))
		count += !*why || !strncmp(strchr(line, '\n') - strlen(word) + 1, word, strlen(word));
	return count;
}

/* How many are open here, with that by which one looks. */
static u32 open_here(void)
{
	int next = dup(0);
	close(next);
	u32 open = 0;
	for (int file = 0; file < 1024; file++)
		open += fcntl(file, F_GETFD) >= 0;
	return open + 1;
}

static int has_look(const char *why)
{
	struct rlimit limit;
	char line[128];
	getrlimit(RLIMIT_NOFILE, &limit);
	snprintf(line, sizeof line, " descriptors 0 %u open=%u limit=%llu why=%s\n",
		 names_of(RECEIVER, RECEIVER, now()).process, open_here(), (unsigned long long)limit.rlim_cur, why);
	return has_line(line);
}

/* Who receives a descriptor is looked at then, when a call of its own fails, and at the end. No look is taken at others,
 * whatever their objects and offsets are, and none at what has ended. */
static void received_descriptors(void)
{
	made_process(RECEIVER, (u32)getpid(), own_start(), "receiver", MET_FROM_START);
	made_process(GONE, (u32)getpid() + 1, 1, "gone", MET_FROM_START);
	u64 at = sizeof(struct flat_binder_object);
	hear_object(RECEIVER, BINDER_TYPE_BINDER, at);
	hear_object(RECEIVER, BINDER_TYPE_FD, 2 * at - 3);
	hear_object(RECEIVER, BINDER_TYPE_FD, ~0ull);
	hear_failure(RECEIVER);
	hear_object(GONE, BINDER_TYPE_FD, at);
	should(looks("") == 0, "looks at processes that receive none, or are gone", looks(""));
	hear_object(RECEIVER, BINDER_TYPE_FD, at);
	should(has_look("first"), "what is open when the first descriptor came", open_here());
	hear_object(RECEIVER, BINDER_TYPE_FDA, at);
	hear_failure(RECEIVER);
	should(looks("") == 1, "looks within a second", looks(""));
	usleep(1100000);
	hear_object(RECEIVER, BINDER_TYPE_FD, at);
	should(looks("") == 1, "looks when one more descriptor came", looks(""));
	int more[] = { dup(0), dup(0), dup(0) };
	hear_failure(RECEIVER);
	should(has_look("failed"), "what is open when a call failed", open_here());
	close(more[0]);
	descriptors_look();
	should(looks("end") == 0, "looks of the end before all is written", looks("end"));
	descriptors_tell();
	should(has_look("end"), "what is open at the end", open_here());
	descriptors_tell_again();
	should(looks("first") == 2, "first looks, of two files", looks("first"));
	names_closed(RECEIVER, now(), last);
	names_settled(last + 1);
	descriptors_look();
	descriptors_tell();
	descriptors_tell_again();
	should(looks("") == 4, "looks, with none at what has ended", looks(""));
	close(more[1]);
	close(more[2]);
}

/* Reads lines of frames of the side list back, from this number on. Returns how many frames follow each other, each so
 * much later than the one before it; the time of the first one is 0. */
static u64 read_back(u64 first, u64 later)
{
	u64 next = first;
	read_side_list();
	for (char *line = list, *at; line; line = strchr(line + 1, '\n')) {
		u64 time = strtoull(line, &at, 10);
		if (strncmp(at, " frames ", 8) || strtoull(at + 8, &at, 10) != next)
			continue;
		for (; time == later * (next - first); time += strtoull(at, &at, 10)) {
			next++;
			if (*at != ' ')
				break;
		}
	}
	return next - first;
}

/* How many bytes the longest line of frames has, with its end. */
static u64 longest_line(void)
{
	u64 longest = 0;
	read_side_list();
	for (char *line = strtok(list, "\n"); line; line = strtok(NULL, "\n"))
		if (strstr(line, " frames ") && strlen(line) + 1 > longest)
			longest = strlen(line) + 1;
	return longest;
}

/* Frames share lines. A line ends before another one, also if that waits, before a number that does not follow, where the
 * list is handed to the system, and before it is too long. */
static void lines_of_frames(void)
{
	static const u64 times[] = { 1000, 1007, 1003, 1003 };
	parts_flush();
	for (u64 i = 0; i < 4; i++)
		side_frame(times[i], 5 + i);
	side_line(1, "lost 9");
	side_frame(2000, 10);
	side_flush();
	side_frame(2001, 11);
	side_frame(3000, 13);
	side_wait();
	side_line(1, "waits");
	side_go_on();
	side_frame(4000, 14);
	side_let_go();
	side_flush();
	should(is_last_line("\n1000 frames 5 7 -4 0\n1 lost 9\n2000 frames 10\n2001 frames 11\n3000 frames 13\n"
			    "4000 frames 14\n1 waits\n"), "lines of frames", 0);
	for (u64 i = 0; i < SHARING; i++)
		side_frame(i * LATER, FIRST_SHARING + i);
	side_flush();
	should(read_back(FIRST_SHARING, LATER) == SHARING, "frames read back", (double)read_back(FIRST_SHARING, LATER));
	should(longest_line() > 4096 - 22 && longest_line() <= 4096, "bytes of the longest line of frames",
	       (double)longest_line());
}

int main(int count, char **words)
{
	if (count != 2 || parts_begin(words[1], MOST_TOGETHER, 1))
		fail("usage: loader OUT");
	redact_begin(0);
	made_opening(1, 1000, "caller");
	made_thread(1, 1001, 1000, "caller");
	made_thread(2, 1002, 1000, "caller");
	many_entries();
	many_lines();
	much_memory();
	redact_begin(1);
	long_settling();
	command_lines();
	lines_of_frames();
	received_descriptors();
	if (parts_end())
		fail("the files can't be written");
	return failed;
}
