#define _GNU_SOURCE
#include "live_lines.h"
#include "command.h"
#include "interfaces.h"
#include "live.h"
#include "oneways.h"
#include "open_calls.h"
#include "parts.h"
#include "rates.h"
#include "window.h"
#include "worker.h"
#include <errno.h>
#include <fcntl.h>
#include <poll.h>
#include <stdarg.h>
#include <stdio.h>
#include <stdlib.h>
#include <string.h>
#include <time.h>
#include <unistd.h>

#define LONG 1000000000u		/* nanoseconds after which an open call is listed */
#define MOST_ROWS 100u			/* of each sort */
#define LONGEST_ROW 2048u
#define AT_ONCE 4096u			/* so many bytes of a pipe are not torn by those of others */
#define LONGEST_NAME 128u		/* bytes of it */
#define NAME_ROOM (4 * LONGEST_NAME + 1)
#define LATELY 5u			/* the rate on the disk is of some such seconds */

/* The lines of a second, which a thread writes. */
struct picture {
	struct job job;
	int to;
	int is_broken;			/* nobody reads them */
	char *text;
	size_t bytes, room;
};

static struct worker writer = WORKER;
static struct picture picture = { .to = STDOUT_FILENO };
static int is_marked, is_narrowed;
static u64 number, left_out;		/* of the lines of a second; and how many of these were not written since */
static u64 kept_bytes;			/* the least that a flight recorder keeps; 0: all */
static u64 frames_before, lost_before, written_before;
static double bytes_lately;		/* in a second */

void live_lines_begin(const struct options *options)
{
	const char *descriptor = getenv("RECORD_LIVE");
	is_marked = descriptor != NULL;
	if (descriptor) {
		picture.to = atoi(descriptor);
		fcntl(picture.to, F_SETFD, FD_CLOEXEC);		/* PROGRAM does not get it */
	}
	unsetenv("RECORD_LIVE");
	is_narrowed = options->process_count || options->called_count;
	kept_bytes = options->files ? (options->files - 1) * options->size : 0;
}

/* ---- writing */

static size_t piece_of(const char *text, size_t bytes)
{
	const char *end = bytes > AT_ONCE ? memrchr(text, '\n', AT_ONCE) : NULL;
	return end ? (size_t)(end + 1 - text) : bytes < AT_ONCE ? bytes : AT_ONCE;
}

/* Whole lines at once, so that those of others come between them and not into them. The descriptor may be one that does
 * not wait by itself. */
static void write_picture(struct job *job)
{
	struct picture *p = (struct picture *)job;
	for (size_t at = 0; at < p->bytes && !p->is_broken;) {
		ssize_t count = write(p->to, p->text + at, piece_of(p->text + at, p->bytes - at));
		struct pollfd waits = { .fd = p->to, .events = POLLOUT };
		if (count > 0)
			at += (size_t)count;
		else if (count < 0 && errno == EAGAIN)
			poll(&waits, 1, -1);
		else if (count < 0 && errno != EINTR)
			p->is_broken = 1;
	}
}

static void line(const char *format, ...) __attribute__((format(printf, 1, 2)));

static void line(const char *format, ...)
{
	if (picture.room - picture.bytes < LONGEST_ROW + 2) {
		picture.room = 2 * picture.room + 2 * LONGEST_ROW;
		picture.text = resize(picture.text, picture.room);
	}
	if (is_marked)
		picture.text[picture.bytes++] = LIVE_MARK;
	va_list arguments;
	va_start(arguments, format);
	int length = vsnprintf(picture.text + picture.bytes, LONGEST_ROW, format, arguments);
	va_end(arguments);
	picture.bytes += (size_t)length < LONGEST_ROW ? (size_t)length : LONGEST_ROW - 1;
	picture.text[picture.bytes++] = '\n';
}

/* ---- names */

/* A name as one word of plain ASCII: what is none, or would end the word, becomes \xHH. An empty one is a dash. */
static const char *word_of(char *to, const char *from, u32 bytes)
{
	char *end = to;
	for (u32 i = 0; i < bytes; i++) {
		unsigned char byte = (unsigned char)from[i];
		if (byte > ' ' && byte < 0x7f && byte != '\\')
			*end++ = (char)byte;
		else
			end += sprintf(end, "\\x%02x", byte);
	}
	strcpy(end, bytes ? "" : "-");
	return to;
}

static const char *name_of(char *to, const struct open_process *process)
{
	const char *program = NULL;
	u32 bytes = process ? command_program(process->opening, &program) : 0;
	if (!bytes && process) {
		program = process->name;
		bytes = (u32)strnlen(program, NAME_BYTES);
	}
	return word_of(to, program, bytes < LONGEST_NAME ? bytes : LONGEST_NAME);
}

static const char *name_of_thread(char *to, const struct open_thread *thread)
{
	return word_of(to, thread->name, (u32)strnlen(thread->name, NAME_BYTES));
}

/* ---- lines */

static void tell_rate(const struct rate *rate)
{
	char from_name[NAME_ROOM], to_name[NAME_ROOM];
	const struct open_process *from = rate->from ? open_calls_process(rate->device, (u32)rate->from - 1) : NULL;
	const struct open_process *to = open_calls_process(rate->device, rate->to);
	line("%s n=%llu all=%llu from=%u to=%u code=%u interface=%s from-name=%s to-name=%s",
	     rate->is_oneway ? "oneway" : "call", (unsigned long long)rate->now,
	     (unsigned long long)(rate->all + rate->now), from ? from->pid : rate->from_pid, to ? to->pid : rate->to,
	     rate->code, interface_name(rate->interface), name_of(from_name, from), name_of(to_name, to));
}

/* Where in the kernel a thread waits: `-` if it does not, or the system does not tell. */
static void place_in_kernel(char *to, u32 room, const struct open_thread *thread)
{
	char path[64];
	snprintf(path, sizeof path, "/proc/%u/task/%u/wchan", thread->pid, thread->tid);
	int file = open(path, O_RDONLY | O_CLOEXEC);
	ssize_t bytes = file < 0 ? 0 : read(file, to, room - 1);
	if (file >= 0)
		close(file);
	to[bytes > 0 ? bytes : 0] = 0;
	to[strspn(to, "abcdefghijklmnopqrstuvwxyzABCDEFGHIJKLMNOPQRSTUVWXYZ0123456789_.")] = 0;
	if (!*to || !strcmp(to, "0"))
		strcpy(to, "-");
}

/* What the thread that has a call waits for: an answer itself, or something in the kernel. */
static void tell_holder(char *to, u32 room, const struct open_level *served)
{
	char name[NAME_ROOM], thread_name[NAME_ROOM], wait[64];
	const struct open_thread *thread = served->thread;
	const struct open_level *innermost = LINKED(thread->levels.before, struct open_level, of_thread);
	if (innermost->serves)
		place_in_kernel(wait, sizeof wait, thread);
	else
		snprintf(wait, sizeof wait, "answer");
	snprintf(to, room, " in=%u in-thread=%u waits=%s in-name=%s in-thread-name=%s", thread->pid, thread->tid, wait,
		 name_of(name, thread->process), name_of_thread(thread_name, thread));
}

static void tell_waiting(char *to, u32 room, const struct open_process *receiver)
{
	char name[NAME_ROOM];
	*to = 0;
	if (receiver)
		snprintf(to, room, " for=%u for-name=%s", receiver->pid, name_of(name, receiver));
}

static void tell_open(const struct open_level *call, u64 time)
{
	char name[NAME_ROOM], thread_name[NAME_ROOM], holder[LONGEST_ROW];
	if (call->other)
		tell_holder(holder, sizeof holder, call->other);
	else
		tell_waiting(holder, sizeof holder, call->receiver);
	line("open seconds=%.1f from=%u thread=%u handle=%u code=%u interface=%s from-name=%s thread-name=%s%s",
	     (double)(time - call->since) / 1e9, call->thread->pid, call->thread->tid, call->handle, call->code,
	     interface_name(call->interface), name_of(name, call->thread->process),
	     name_of_thread(thread_name, call->thread), holder);
}

/* The calls that have been open for long are the first ones by age. Returns how many they are. */
static u32 tell_all_open(u64 time)
{
	u32 count = 0;
	for (struct link *link = open_calls.next; link != &open_calls; link = link->next) {
		const struct open_level *call = open_call_at(link);
		if (call->since + LONG > time)
			break;
		if (count++ < MOST_ROWS)
			tell_open(call, time);
	}
	return count;
}

static void tell_pool(const struct open_process *p, u64 time)
{
	char name[NAME_ROOM];
	double full = p->full_since && p->full_since < time ? (double)(time - p->full_since) / 1e9 : 0;
	line("pool process=%u serving=%u of=%u waiting=%u full=%.1f name=%s", p->pid, p->serving, p->pool, p->waiting, full,
	     name_of(name, p));
}

static void tell_oneways(const struct open_process *p)
{
	char name[NAME_ROOM];
	line("async process=%u n=%u bytes=%llu name=%s", p->pid, p->oneways, (unsigned long long)p->oneway_bytes,
	     name_of(name, p));
}

static int compare_pools(const void *one, const void *other)
{
	const struct open_process *a = *(const struct open_process *const *)one;
	const struct open_process *b = *(const struct open_process *const *)other;
	if (a->waiting != b->waiting)
		return a->waiting < b->waiting ? 1 : -1;
	if (a->serving != b->serving)
		return a->serving < b->serving ? 1 : -1;
	return a->pid < b->pid ? -1 : a->pid > b->pid;
}

static int compare_oneways(const void *one, const void *other)
{
	const struct open_process *a = *(const struct open_process *const *)one;
	const struct open_process *b = *(const struct open_process *const *)other;
	if (a->oneway_bytes != b->oneway_bytes)
		return a->oneway_bytes < b->oneway_bytes ? 1 : -1;
	return a->pid < b->pid ? -1 : a->pid > b->pid;
}

static int is_at_work(const struct open_process *p)
{
	return p->serving || p->waiting;
}

static int has_oneways(const struct open_process *p)
{
	return p->oneways != 0;
}

/* The processes of which this is so, in this order. Returns how many there are. */
static u32 processes(const struct open_process ***found, int (*is_so)(const struct open_process *),
		     int (*compare)(const void *, const void *))
{
	static const struct open_process **all;
	static u32 room;
	u32 count = 0;
	for (struct link *link = open_processes.next; link != &open_processes; link = link->next) {
		const struct open_process *p = open_process_at(link);
		if (!is_so(p))
			continue;
		if (count == room) {
			room = room ? 2 * room : 64;
			all = resize(all, room * sizeof *all);
		}
		all[count++] = p;
	}
	if (count)
		qsort(all, count, sizeof *all, compare);
	*found = all;
	return count;
}

static u32 tell_rates(void)
{
	u32 count;
	const struct rate *const *rates = rates_sorted(&count);
	for (u32 i = 0; i < count && i < MOST_ROWS; i++)
		tell_rate(rates[i]);
	return count;
}

static u32 tell_pools(u64 time)
{
	const struct open_process **found;
	u32 count = processes(&found, is_at_work, compare_pools);
	for (u32 i = 0; i < count && i < MOST_ROWS; i++)
		tell_pool(found[i], time);
	return count;
}

static u32 tell_all_oneways(void)
{
	const struct open_process **found;
	u32 count = processes(&found, has_oneways, compare_oneways);
	for (u32 i = 0; i < count && i < MOST_ROWS; i++)
		tell_oneways(found[i]);
	return count;
}

/* How many bytes a second come to the files. A second alone says little: files are written in pieces. */
static double rate_on_disk(double seconds)
{
	u64 written = parts_written();
	double rate = (double)(written - written_before) / seconds;
	bytes_lately = written_before ? bytes_lately + (rate - bytes_lately) / LATELY : rate;
	written_before = written;
	return bytes_lately;
}

static void tell_head(const struct live_counts *counts, u64 time)
{
	struct timespec wall;
	double seconds = (double)(time - counts->time) / 1e9, rate = rate_on_disk(seconds);
	struct oneways_unknown unknown = is_narrowed ? (struct oneways_unknown){ 0 } : oneways_unknown();
	char reach[32] = "-";
	clock_gettime(CLOCK_REALTIME, &wall);
	if (kept_bytes && rate >= 1)
		snprintf(reach, sizeof reach, "%.0f", (double)kept_bytes / rate);
	line("live %llu time=%lld.%03ld seconds=%.3f calls=%llu oneways=%llu answers=%llu refused=%llu frames=%llu lost=%llu"
	     " lost-in-all=%llu bytes=%.0f reach=%s unknown-oneways=%llu unknown-bytes=%llu left-out=%llu",
	     (unsigned long long)number, (long long)wall.tv_sec, wall.tv_nsec / 1000000, seconds,
	     (unsigned long long)counts->calls, (unsigned long long)counts->oneways,
	     (unsigned long long)counts->answers, (unsigned long long)counts->refused,
	     (unsigned long long)(window_frames() - frames_before), (unsigned long long)(window_lost() - lost_before),
	     (unsigned long long)window_lost(), rate, reach, (unsigned long long)unknown.count,
	     (unsigned long long)unknown.bytes, (unsigned long long)left_out);
	frames_before = window_frames();
	lost_before = window_lost();
}

void live_lines(const struct live_counts *counts, u64 time)
{
	worker_take(&writer);
	if (picture.is_broken)
		return;
	number++;
	if (writer.awaited) {
		left_out++;
		return;
	}
	picture.bytes = 0;
	tell_head(counts, time);
	u32 rates = tell_rates(), open = tell_all_open(time), pools = tell_pools(time), oneways = tell_all_oneways();
	line("end %llu rates=%u open=%u pools=%u async=%u", (unsigned long long)number, rates, open, pools, oneways);
	picture.job.work = write_picture;
	if (!worker_ask(&writer, &picture.job))
		left_out++;
}
