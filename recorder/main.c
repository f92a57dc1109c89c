/* Records the Binder traffic of a system into a capture and a side list. docs/RECORD.md says how and why. */
#define _GNU_SOURCE
#include "begin.h"
#include "books.h"
#include "clocks.h"
#include "command.h"
#include "common.h"
#include "descriptors.h"
#include "failures.h"
#include "frame.h"
#include "keep.h"
#include "keep_asked.h"
#include "kept_set.h"
#include "kernel.h"
#include "lack.h"
#include "live.h"
#include "met.h"
#include "missed.h"
#include "names.h"
#include "narrowed.h"
#include "needs.h"
#include "options.h"
#include "parts.h"
#include "program.h"
#include "ready.h"
#include "redact.h"
#include "side.h"
#include "stacks.h"
#include "triggers.h"
#include "window.h"
#include <errno.h>
#include <fcntl.h>
#include <signal.h>
#include <stdio.h>
#include <stdlib.h>
#include <string.h>
#include <sys/stat.h>
#include <time.h>
#include <unistd.h>

#define MILLISECOND 1000000u
#define FLUSH_EVERY (250u * MILLISECOND)
#define TELL_EVERY (1000u * MILLISECOND)
#define LOOK_EVERY (2u * MILLISECOND)
#define LONGEST_PAUSE (16u * MILLISECOND)
#define RING_OF_LONGEST_PAUSE (64u << 20)	/* some 4 GB a second would fill such a ring meanwhile */
#define FEW_MESSAGES 256
#define LONGEST_PATH 4200
#define ROOM_FOR_LINES 16384		/* bytes */
#define LAST_WAIT (1000u * MILLISECOND)		/* for frames that are not whole when the recording ends */

static volatile sig_atomic_t signal_got;

static void on_signal(int number)
{
	signal_got = number;
}

static void catch_signals(void)
{
	struct sigaction action = { .sa_handler = on_signal }, before;
	sigaction(SIGINT, &action, NULL);
	sigaction(SIGTERM, &action, NULL);
	if (!sigaction(SIGHUP, NULL, &before) && before.sa_handler != SIG_IGN)	/* nohup ignores it */
		sigaction(SIGHUP, &action, NULL);
	action.sa_handler = keep_asked_by_signal;
	sigaction(SIGUSR1, &action, NULL);
	signal(SIGPIPE, SIG_IGN);
}

static void pause_for(u64 nanoseconds)
{
	struct timespec time = { .tv_nsec = (long)nanoseconds };
	nanosleep(&time, NULL);
}

/* How long the ring may fill before it is looked at again. A process of which a stack came is looked at at once: what it
 * has mapped can't be read after it has ended. */
static u64 pause_of(const struct options *options)
{
	u64 pause = LONGEST_PAUSE * options->ring / RING_OF_LONGEST_PAUSE;
	if (pause > LONGEST_PAUSE)
		pause = LONGEST_PAUSE;
	return options->stacks || pause < LOOK_EVERY ? LOOK_EVERY : pause;
}

/* Creates the files, or ends; then no file is left. */
static void create_files(const struct options *options)
{
	int error = parts_begin(options->out, options->size, options->files);
	if (error)
		parts_remove();
	if (error)
		fail("%s: %s", parts_path(), strerror(error));
	if (options->files) {
		met_keep(options->size);
		window_bound_refused();
		begin_tell_also(missed_tell_again);
	}
}

/* A caller that wants what --check says before a recording, and does not want all to be loaded for that twice, names a
 * descriptor for the line that the system is ready. Returns NULL if there is no such caller. */
static FILE *open_for_ready(void)
{
	const char *descriptor = getenv("RECORD_READY");
	FILE *to = descriptor ? fdopen(atoi(descriptor), "w") : NULL;
	if (descriptor && !to)
		fail("RECORD_READY=%s: %s", descriptor, strerror(errno));
	unsetenv("RECORD_READY");	/* it is not for PROGRAM */
	return to;
}

static void tell_ready(FILE *to)
{
	fprintf(to, "record: ");
	ready_tell(to);
	fclose(to);
}

/* Takes what is in the ring. Returns how many messages that was, and at least FEW_MESSAGES if frames are still to be
 * written. */
static long take(struct ring *ring)
{
	kernel_make_room();
	u64 bound = kernel_bound();
	long count = window_take(ring);
	if (count >= 0)
		window_silent_until(bound);
	if (count)
		missed_tell();
	stacks_look();
	names_look();
	int has_more = window_settle();
	window_give_back(ring);
	return has_more && count < FEW_MESSAGES ? FEW_MESSAGES : count;
}

/* If standard error is a file, it keeps room for what is said when the disk is full. */
static void keep_room_for_lines(void)
{
	struct stat status;
	if (!fstat(STDERR_FILENO, &status) && S_ISREG(status.st_mode))
		(void)fallocate(STDERR_FILENO, FALLOC_FL_KEEP_SIZE, status.st_size, ROOM_FOR_LINES);
}

static void tell_progress(void)
{
	fprintf(stderr, "\rrecord: %llu frames, %llu lost, %.1f MB\033[K", (unsigned long long)window_frames(),
		(unsigned long long)window_lost(), (double)parts_bytes() / 1e6);
}

/* Records until the program ends or a signal comes. Returns 0, or the errno of a write that failed. */
static int record(struct ring *ring, u64 pause, int is_live)
{
	/* A caller may show the progress on a terminal that the recorder does not see. */
	int is_terminal = !is_live && (isatty(STDERR_FILENO) || getenv("RECORD_PROGRESS")), error = 0;
	u64 flushed = now(), told = flushed;
	while (!signal_got && !error) {
		long count = take(ring);
		u64 time = now();
		clocks_look();
		failures_look();
		keep_look();
		keep_asked_look();
		triggers_look();
		live_look();
		if (time - flushed >= FLUSH_EVERY) {
			missed_tell();
			error = parts_flush();
			flushed = time;
		}
		if (is_terminal && time - told >= TELL_EVERY) {
			tell_progress();
			told = time;
		}
		if (program_is_there() && program_has_ended())
			break;
		if (count < FEW_MESSAGES)
			pause_for(pause);
	}
	if (is_terminal)
		fprintf(stderr, "\r\033[K");
	return error;
}

/* Ends the recording at one moment. What comes later is not in it, for example what a call reads that waits in the
 * driver then: what that comes of may not be in it either. What has its number by then may still be on its way, and is
 * waited for: a program copies it, the loader is behind with the ring, or the driver is not through with a write. */
static void finish(struct ring *ring)
{
	u64 last = kernel_stop(), stopped = now();
	window_stop(last, stopped);
	while (window_last() < last && now() - stopped < LAST_WAIT) {
		take(ring);
		pause_for(LOOK_EVERY);
	}
	kernel_detach();
	pause_for(10 * LOOK_EVERY);
	while (take(ring) > 0 || (kernel_bound() < last && now() - stopped < 2 * LAST_WAIT))
		pause_for(LOOK_EVERY);
	missed_tell();
	window_end();
	failures_end();
	names_end();
	stacks_end();
	clocks_tell();
	descriptors_tell();
	books_tell();
	/* A program that had its number at the end may have looked at the clock after that. */
	u64 time = window_latest() > stopped ? window_latest() : stopped;
	side_line(time, "end recording after=%llu frames=%llu lost=%llu", (unsigned long long)window_last(),
		  (unsigned long long)window_frames(), (unsigned long long)window_lost());
}

static void add_reasons(char *text, size_t room)
{
	const char *between = " (";
	for (u32 reason = 1; reason < REASON_END; reason++) {
		size_t used = strlen(text);
		if (!window_lost_because(reason))
			continue;
		snprintf(text + used, room - used, "%s%s %llu", between, reason_word(reason),
			 (unsigned long long)window_lost_because(reason));
		between = ", ";
	}
	if (between[0] == ',')
		strncat(text, ")", room - strlen(text) - 1);
}

static void add_count(char *text, size_t room, const char *what, u64 count)
{
	size_t used = strlen(text);
	if (count)
		snprintf(text + used, room - used, "; %s %llu", what, (unsigned long long)count);
}

/* Writes the last line: the result, and the command to run next. */
static void tell_end(const char *audit)
{
	static char commands[65536];
	char text[1000];
	snprintf(text, sizeof text, "%llu frames, %llu lost", (unsigned long long)parts_frames(),
		 (unsigned long long)window_lost());
	add_reasons(text, sizeof text);
	add_count(text, sizeof text, "calls without a number", missed_count(MISSED_NUMBERS));
	add_count(text, sizeof text, "events missed", missed_count(MISSED_EVENTS));
	add_count(text, sizeof text, "attachments left out", frame_entries_left_out());
	add_count(text, sizeof text, "calls of 32-bit programs, not recorded", missed_count(MISSED_32_BIT));
	add_count(text, sizeof text, "stacks not had", missed_count(MISSED_STACK_ROOM) +
		  missed_count(MISSED_STACK_FAILED) + missed_count(MISSED_STACK_EMPTY) + stacks_forgotten());
	add_count(text, sizeof text, "processes without maps", stacks_unmapped());
	parts_commands(audit, commands, sizeof commands);
	if (parts_kept() < parts_count())
		add_count(text, sizeof text, "files removed", parts_count() - parts_kept());
	fprintf(stderr, "record: %s; %u file%s, %llu bytes; next: %s\n", text, parts_kept(),
		parts_kept() == 1 ? "" : "s", (unsigned long long)parts_bytes(), commands);
}

/* The auditor and the viewer are in the folder of the script that was called. In a package all names begin with
 * `binder-`. */
static const char *beside(const char *self, const char *name, char *path, size_t room)
{
	const char *slash = strrchr(self, '/'), *own = slash ? slash + 1 : self;
	snprintf(path, room, "%.*s%s%s", (int)(own - self), self, strcmp(own, "binder-record") ? "" : "binder-", name);
	return path;
}

/* After a signal has ended the recording, the program goes on. A second signal ends the wait for it. */
static int wait_for_program(void)
{
	if (program_has_ended())
		return program_status();
	complain("the recording has ended; waiting for the program, which goes on");
	signal_got = 0;
	while (!program_has_ended() && !signal_got)
		program_wait();
	return program_has_ended() ? program_status() : 128 + signal_got;
}

/* What can be looked at before anything is loaded. */
static void need_all(const struct options *options)
{
	const char *path = parts_in_the_way(options->out);
	if (!path)
		path = books_in_the_way(options->out);
	if (!path && options->files)
		path = kept_set_in_the_way(options->out);
	if (path)
		lack("%s exists already, and is not overwritten", path);
	need_space(options->out, 2 * options->size * options->files);
	need_capabilities();
	need_kernel();
	need_no_lockdown();
	int has_driver = need_driver();
	if (need_tracefs() && has_driver)
		need_tracepoints();
	triggers_need();
}

/* Looks whether a recording can be made, as far as it goes without one: all is loaded, and the files are created.
 * Returns the status. */
static int check(const struct options *options, struct ring *ring)
{
	if (lack_count())
		return 1;
	kernel_load(options, ring);
	create_files(options);
	parts_remove();
	kernel_detach();
	kernel_unload();
	if (lack_count())
		return 1;
	ready_tell(stdout);
	return 0;
}

/* Loads all, if the system lacks nothing; else ends the recorder. */
static void load(const struct options *options, struct ring *ring)
{
	if (!lack_count())
		kernel_load(options, ring);
	if (lack_count())
		exit(1);
	if (signal_got)
		fail("a signal came before the recording began");
}

/* Begins the recording, and then the program. */
static void begin(const struct options *options, const char *self, FILE *for_ready)
{
	static char view[LONGEST_PATH];
	redact_begin(options->redact);
	if (options->redact)
		command_redact();
	if (options->stacks)
		stacks_begin();
	if (options->files)
		keep_begin(options, beside(self, "view", view, sizeof view));
	triggers_begin(options);
	live_begin(options);
	keep_room_for_lines();
	create_files(options);
	if (options->files)
		keep_asked_begin(options->out);
	if (for_ready)
		tell_ready(for_ready);
	kernel_meet_openings();
	if (options->program)
		program_prepare(options->program);
	missed_begin();
	failures_begin();
	kernel_start();
	begin_tell(options->no_attachments ? "none" : options->redact ? "redacted" : "whole",
		   narrowed_field(options));
	books_copy(options->out, "begin");
	books_keep_names(options->out);
	books_tell();
	side_flush();
	program_go();
}

int main(int count, char **words)
{
	static char audit[LONGEST_PATH];
	struct options options;
	struct ring ring;
	options_read(&options, count, words);
	if (options.keep)
		return keep_request(options.has_out ? options.out : NULL);
	FILE *for_ready = open_for_ready();
	if (options.check || for_ready)
		lack_list();
	if (!options.check) {
		program_keep_signals();
		catch_signals();
	}
	need_all(&options);
	if (options.check)
		return check(&options, &ring);
	load(&options, &ring);
	begin(&options, words[0], for_ready);
	int error = record(&ring, pause_of(&options), options.live);
	if (error)
		books_drop_names();
	else
		books_copy(options.out, "end");
	descriptors_look();
	triggers_end();
	finish(&ring);
	redact_end();
	int end_error = parts_end();
	keep_end();
	keep_asked_end();
	error = error ? error : end_error;
	if (error)
		complain("%s: %s; the recording ends after number %llu", parts_path(), strerror(error),
			 (unsigned long long)parts_last());
	tell_end(beside(words[0], "audit", audit, sizeof audit));
	int status = wait_for_program();
	kernel_unload();
	return error ? 1 : status;
}
