#define _GNU_SOURCE
#include "keep.h"
#include "kept_set.h"
#include "kernel.h"
#include "parts.h"
#include "shell_word.h"
#include "side.h"
#include "window.h"
#include "worker.h"
#include <stdio.h>
#include <stdlib.h>
#include <string.h>
#include <time.h>
#include <unistd.h>

/* What is done with the set that is being kept, if there is one. */
enum stage { NONE, COPIES_BOOKS, SETTLES, GATHERS, SECURES };

static const char *out, *view;
static u32 most_sets;
static u64 most_bytes;
static u32 most_files;
static enum stage stage;
static u64 last;			/* when the last set was begun */
static struct why_kept why;
static struct kept result;
static struct worker worker = WORKER;
static struct work {			/* what the worker has, while it has it */
	struct job job;
	int (*of_set)(struct kept_set *set);
	int is_done;
	struct kept_set set;
} work;

void keep_begin(const struct options *options, const char *its_view)
{
	view = its_view;
	out = options->out;
	most_sets = options->keep_most;
	most_bytes = options->size;
	most_files = options->files;
}

u64 keep_last(void)
{
	return last;
}

const struct kept *keep_result(void)
{
	return &result;
}

static void do_work(struct job *job)
{
	struct work *its = (void *)job;
	its->is_done = its->of_set(&its->set);
}

/* Without a thread it is done here and now: it is late, but done. */
static void go_to(enum stage next, int (*of_set)(struct kept_set *set))
{
	stage = next;
	work.of_set = of_set;
	work.job.work = do_work;
	if (!worker_ask(&worker, &work.job))
		do_work(&work.job);
}

/* A line on a terminal takes the place of what shows the progress there. */
static void say(const char *format, ...) __attribute__((format(printf, 1, 2)));
static void say(const char *format, ...)
{
	va_list arguments;
	if (isatty(STDERR_FILENO))
		fprintf(stderr, "\r\033[K");
	va_start(arguments, format);
	complain_with(format, arguments);
	va_end(arguments);
}

static void give_up(const char *reason)
{
	stage = NONE;
	snprintf(result.failure, sizeof result.failure, "%s", reason);
	say("nothing is kept, though %s: %s", why.words, reason);
}

/* The files as they may be at the most, with side lists as long as those that there are in proportion. */
static u64 room_for_files(void)
{
	return most_bytes * most_files + most_bytes * most_files / 4;
}

int keep_ask(const struct why_kept *asked)
{
	if (stage != NONE)
		return 0;
	if (!out) {
		say("nothing is kept: only a recording with --files removes files");
		return 1;
	}
	why = *asked;
	last = now();
	result = (struct kept){ .asked = result.asked + 1 };
	free(work.set.numbers);
	work.set = (struct kept_set){ .out = out, .most = most_sets, .needed = room_for_files() };
	go_to(COPIES_BOOKS, kept_set_begin);
	return 1;
}

/* ---- the last lines of the set's last side list */

static void add(struct kept_set *set, const char *format, ...) __attribute__((format(printf, 2, 3)));
static void add(struct kept_set *set, const char *format, ...)
{
	size_t used = strlen(set->last_lines);
	va_list arguments;
	va_start(arguments, format);
	vsnprintf(set->last_lines + used, sizeof set->last_lines - used, format, arguments);
	va_end(arguments);
}

static void add_why(struct kept_set *set)
{
	add(set, "%llu kept %s after=%llu", (unsigned long long)why.time, why.word, (unsigned long long)why.after);
	if (why.has_record)
		add(set, " frame=%llu at=%u", (unsigned long long)why.frame, why.record);
	if (why.pid)
		add(set, " pid=%u", why.pid);
	if (why.since)
		add(set, " since=%llu", (unsigned long long)why.since);
	if (why.limit)
		add(set, " limit=%llu", (unsigned long long)why.limit);
	add(set, " name=%s\n", why.name);
}

static void add_copies(struct kept_set *set)
{
	char line[LONGEST_BOOKS_LINE];
	for (u32 i = 0; i < set->copy_count; i++) {
		books_line(line, sizeof line, set->copies + i);
		add(set, "%llu %s\n", (unsigned long long)set->copies[i].time, line);
	}
}

/* ---- the moment */

static u64 end_number, end_time;	/* where the set ends */

static u64 latest_of(u64 one, u64 other)
{
	return one > other ? one : other;
}

/* With which file those begin that the viewer takes as one: the newest ones. */
static u32 first_together(const struct kept_set *set)
{
	u64 bytes = 0;
	u32 at = set->count, files = 0;
	while (at && files < MOST_FILES_TOGETHER && (bytes += parts_size(set->numbers[at - 1])) <= MOST_TOGETHER) {
		at--;
		files++;
	}
	return at;
}

/* Ends the newest file where the set ends, and hands the set over. Returns 0 if that has to wait. */
static int cut(void)
{
	struct kept_set *set = &work.set;
	u64 time = latest_of(end_time, latest_of(window_latest(), window_latest_line()));
	parts_hold();
	int error = parts_cut(end_number, time);
	if (error == PARTS_LATER)
		return 0;
	if (error) {				/* the recording ends */
		parts_let_go();
		kept_set_drop(set);
		give_up(strerror(error));
		return 1;
	}
	set->numbers = allocate((parts_newest() - parts_first() + 1) * sizeof *set->numbers);
	for (u32 number = parts_first(); number < parts_newest(); number++)
		if (parts_size(number))
			set->numbers[set->count++] = number;
	set->together = first_together(set);
	add_why(set);
	add_copies(set);
	add(set, "%llu end recording after=%llu frames=%llu lost=%llu\n", (unsigned long long)time,
	    (unsigned long long)end_number, (unsigned long long)window_frames(), (unsigned long long)window_lost());
	go_to(GATHERS, kept_set_gather);
	return 1;
}

/* The set ends now, at one moment, as a recording does: with the last number that has been taken. */
static void begin_to_settle(void)
{
	stage = SETTLES;
	end_number = kernel_last_number();
	end_time = now();
	window_mark(end_number, cut);
}

/* ---- the end of a set */

/* Adds the files whose numbers follow each other, for the command that shows the set. */
static void add_files(char *to, u64 room, const char *stem, u32 from, u32 until)
{
	size_t used = strlen(to);
	if (from == until)
		snprintf(to + used, room - used, " %s-%u.cap", stem, from);
	else
		snprintf(to + used, room - used, " %s-{%u..%u}.cap", stem, from, until);
}

static void say_kept(void)
{
	static char text[65536], path[8300], word[4 * sizeof path];
	const struct kept_set *set = &work.set;
	const char *slash = strrchr(out, '/');
	kept_set_path(set, result.folder, sizeof result.folder);
	shell_word(text, sizeof text / 4, view);
	snprintf(path, sizeof path, "%s%s/%s", out[0] == '-' ? "./" : "", result.folder, slash ? slash + 1 : out);
	shell_word(word, sizeof word, path);
	for (u32 at = set->together, end; at < set->count; at = end) {
		for (end = at + 1; end < set->count && set->numbers[end] == set->numbers[end - 1] + 1; end++)
			continue;
		add_files(text, sizeof text, word, set->numbers[at], set->numbers[end - 1]);
	}
	say("kept %u files, %llu bytes, in %s, because %s; next: %s", set->count, (unsigned long long)set->bytes,
	    result.folder, why.words, text);
}

static void stage_is_done(void)
{
	if (stage == GATHERS)
		parts_let_go();
	if (!work.is_done) {
		give_up(work.set.failure);
		return;
	}
	switch (stage) {
	case COPIES_BOOKS: begin_to_settle(); break;
	case GATHERS: go_to(SECURES, kept_set_end); break;
	default:
		stage = NONE;
		say_kept();
	}
}

static int worker_has_it(void)
{
	return stage == COPIES_BOOKS || stage == GATHERS || stage == SECURES;
}

/* The side list of a file that was begun with no frame is begun here. */
void keep_look(void)
{
	if (stage > SETTLES)
		parts_go_on();
	if (worker_has_it() && (worker_take(&worker) || !worker.awaited))
		stage_is_done();
}

void keep_end(void)
{
	struct timespec moment = { .tv_nsec = 1000000 };
	while (worker_has_it()) {
		keep_look();
		nanosleep(&moment, NULL);
	}
	if (stage != SETTLES)
		return;
	window_mark(UINT64_MAX, NULL);
	kept_set_drop(&work.set);
	give_up("the recording has ended, and its own files have it");
}
