#define _GNU_SOURCE
#include "triggers.h"
#include "interfaces.h"
#include "keep.h"
#include "kernel.h"
#include "lack.h"
#include "logcat.h"
#include "names.h"
#include "open_calls.h"
#include "side.h"
#include "trigger_words.h"
#include <stdio.h>
#include <stdlib.h>
#include <string.h>
#include <sys/stat.h>

#define SECOND 1000000000u
#define LOOK_EVERY (SECOND / 10)
#define LOOKS_OF_SECOND 10u
#define KEEP_EVERY (60ull * SECOND)	/* a trigger keeps no set within so long after another one */

static int is_redacted;

static u64 looked, kept;		/* the last look, and when the last set was asked for */

void triggers_need(void)
{
	if (asked_triggers.log && !logcat_is_there())
		lack("--keep-on logcat: there is no program logcat, as Android has it");
}

/* ---- asking */

static struct why_kept why_of(const char *word, u64 time, u64 number)
{
	return (struct why_kept){ .word = word, .time = time, .after = number };
}

/* Whether a set was asked for. */
static int ask(const struct why_kept *why, u64 time)
{
	if (!keep_ask(why))
		return 0;
	kept = time;
	return 1;
}

static double seconds(u64 nanoseconds)
{
	return (double)nanoseconds / SECOND;
}

/* ---- a call that hangs */

static void clean(char *to, const char *name)
{
	clean_name(to, name, NAME_BYTES);
}

/* The oldest call that is open for so long, and was so at no look before; NULL if there is none. */
static struct open_level *hanging_call(u64 time)
{
	for (struct link *link = open_calls.next; link != &open_calls; link = link->next) {
		struct open_level *call = open_call_at(link);
		if (call->since + asked_triggers.hang > time)
			return NULL;
		if (!call->mark)
			return call;
	}
	return NULL;
}

/* The set that is kept now has all of these, so none of them is a reason for another one. */
static void mark_hanging(u64 time)
{
	for (struct link *link = open_calls.next; link != &open_calls; link = link->next)
		if (open_call_at(link)->since + asked_triggers.hang <= time)
			open_call_at(link)->mark = 1;
}

static void look_for_hang(u64 time)
{
	const struct open_level *call = hanging_call(time);
	char name[CLEAN_NAME_BYTES];
	if (!call)
		return;
	struct why_kept why = why_of("hang", time, kernel_last_number());
	why.has_record = 1;
	why.frame = call->number;
	why.record = call->record;
	why.pid = call->thread->pid;
	why.since = call->since;
	why.limit = asked_triggers.hang;
	clean(name, call->thread->process->name);
	snprintf(why.words, sizeof why.words, "a call of %.60s (%u), %s%scode %u, has been open for %.1f s", name, why.pid,
		 call->interface ? interface_name(call->interface) : "", call->interface ? " " : "", call->code,
		 seconds(time - call->since));
	if (ask(&why, time))
		mark_hanging(time);
}

/* ---- a pool whose threads all serve */

static const struct open_level *oldest_call_for(const struct open_process *p)
{
	for (struct link *link = open_calls.next; p->waiting && link != &open_calls; link = link->next)
		if (open_call_at(link)->receiver == p)
			return open_call_at(link);
	return NULL;
}

static void ask_for_pool(struct open_process *p, const struct open_level *call, u64 time)
{
	char name[CLEAN_NAME_BYTES];
	struct why_kept why = why_of("pool", time, kernel_last_number());
	why.has_record = 1;
	why.frame = call->number;
	why.record = call->record;
	why.pid = p->pid;
	why.since = p->full_since > call->since ? p->full_since : call->since;
	why.limit = asked_triggers.pool;
	clean(name, p->name);
	snprintf(why.words, sizeof why.words, "all %u threads of %.60s (%u) serve, and a call of process %u has waited for"
		 " %.1f s", p->pool, name, p->pid, call->thread->pid, seconds(time - call->since));
	if (ask(&why, time))
		p->mark = 1;
}

static void look_for_pool(u64 time)
{
	for (struct link *link = open_processes.next; link != &open_processes; link = link->next) {
		struct open_process *p = open_process_at(link);
		if (p->mark || !p->full_since || p->full_since + asked_triggers.pool > time)
			continue;
		const struct open_level *call = oldest_call_for(p);
		if (!call || call->since + asked_triggers.pool > time)
			continue;
		ask_for_pool(p, call, time);
		return;
	}
}

/* ---- refused sends */

static u64 refused_at[LOOKS_OF_SECOND], look_number, look_time[LOOKS_OF_SECOND];
static int were_many;

/* How many were refused since the look a second ago; `since`: when that was. */
static u64 refused_within_second(u64 time, u64 *since)
{
	u32 slot = look_number++ % LOOKS_OF_SECOND;
	u64 before = refused_at[slot];
	*since = look_time[slot] ? look_time[slot] : time;
	refused_at[slot] = refused_sends.count;
	look_time[slot] = time;
	return refused_sends.count - before;
}

static void look_for_refused(u64 time, int may_ask)
{
	u64 since, count = refused_within_second(time, &since);
	int are_many = count >= asked_triggers.refused;
	if (!are_many || were_many || !may_ask) {
		were_many &= are_many;
		return;
	}
	struct why_kept why = why_of("refused", time, kernel_last_number());
	why.has_record = 1;
	why.frame = refused_sends.number;
	why.record = refused_sends.record;
	why.pid = refused_sends.pid;
	why.since = since;
	why.limit = asked_triggers.refused;
	snprintf(why.words, sizeof why.words, "the driver refused %llu sends within a second, the last one of process %u",
		 (unsigned long long)count, why.pid);
	were_many = ask(&why, time);
}

/* ---- what comes at one moment, and is kept in mind until a set may be kept */

static struct why_kept of_death, of_log, of_file;

static void ask_for(struct why_kept *why, u64 time)
{
	if (why->word && ask(why, time))
		why->word = NULL;
}

static void take_end(u32 process, u64 time, u64 number)
{
	if (of_death.word || !names_are_called(process, asked_triggers.death))
		return;
	of_death = why_of("death", time, number);
	of_death.pid = process;
	clean_bytes(of_death.name, asked_triggers.death, (u32)strnlen(asked_triggers.death, 100));
	snprintf(of_death.words, sizeof of_death.words, "%.200s (%u) has ended", of_death.name, process);
}

static void look_at_log(void)
{
	char line[LOGCAT_LINE], clean_line[4 * LOGCAT_LINE];
	u64 time;
	if (of_log.word || !logcat_found(&time, line))
		return;
	of_log = why_of("logcat", time, kernel_last_number());
	clean_bytes(clean_line, line, (u32)strlen(line));
	if (!is_redacted)
		snprintf(of_log.name, sizeof of_log.name, "%s", clean_line);
	snprintf(of_log.words, sizeof of_log.words, "the log has: %.400s", clean_line);
}

/* What is looked at of a file: whether there is one, which, and when it was changed. */
struct look {
	int is_there;
	dev_t device;
	ino_t inode;
	struct timespec changed;
};

static struct look last_look;

static struct look look_at(const char *path)
{
	struct stat status;
	struct look look = { 0 };
	if (stat(path, &status))
		return look;
	return (struct look){ 1, status.st_dev, status.st_ino, status.st_mtim };
}

static int is_same(const struct look *one, const struct look *other)
{
	return one->is_there == other->is_there && one->device == other->device && one->inode == other->inode &&
	       one->changed.tv_sec == other->changed.tv_sec && one->changed.tv_nsec == other->changed.tv_nsec;
}

static void look_at_file(u64 time)
{
	struct look look = look_at(asked_triggers.file);
	int has_come = look.is_there && !is_same(&look, &last_look);
	last_look = look;
	if (!has_come || of_file.word)
		return;
	of_file = why_of("file", time, kernel_last_number());
	clean_bytes(of_file.name, asked_triggers.file, (u32)strnlen(asked_triggers.file, 100));
	snprintf(of_file.words, sizeof of_file.words, "%.400s has come, or was changed", of_file.name);
}

/* ---- the looks */

void triggers_begin(const struct options *options)
{
	is_redacted = options->redact;
	if (asked_triggers.hang || asked_triggers.pool || asked_triggers.refused)
		open_calls_begin();
	if (asked_triggers.death)
		names_tell_end(take_end);
	if (asked_triggers.log)
		logcat_begin();
	if (asked_triggers.file)
		last_look = look_at(asked_triggers.file);
}

void triggers_look(void)
{
	u64 time = now();
	if (!triggers_are_asked() || time - looked < LOOK_EVERY)
		return;
	looked = time;
	int may_ask = !kept || time - kept >= KEEP_EVERY;
	if (asked_triggers.log)
		look_at_log();
	if (asked_triggers.file)
		look_at_file(time);
	if (asked_triggers.refused)
		look_for_refused(time, may_ask);
	if (!may_ask)
		return;
	if (asked_triggers.hang)
		look_for_hang(time);
	if (asked_triggers.pool)
		look_for_pool(time);
	ask_for(&of_death, time);
	ask_for(&of_log, time);
	ask_for(&of_file, time);
}

void triggers_end(void)
{
	if (asked_triggers.log)
		logcat_end();
}
