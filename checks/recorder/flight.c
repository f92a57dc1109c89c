/* flight WORD..: the recorder on these words, with a driver that is made up, which ends the recording by a signal,
 * unless GOES_ON is in the environment. It is through with its only write after that: so nearly all frames are written
 * after its books were copied. And it does more then, which is not in the recording. PLANTED in the environment names
 * files that somebody else makes meanwhile; the system sleeps meanwhile, or with SET_BACK in the environment somebody
 * sets the wall clock back. With SCENE there, what scene.c plays comes in place of all that, until a signal. See loader
 * and live. */
#define _GNU_SOURCE
#include "kernel.h"
#include "kit.h"
#include "lack.h"
#include "made_driver.h"
#include "made_frame.h"
#include "needs.h"
#include "scene.h"
#include <signal.h>
#include <stdio.h>
#include <stdlib.h>
#include <string.h>
#include <sys/mman.h>
#include <time.h>
#include <unistd.h>

enum {
	READS = 100,		/* that wait for the first write */
	RETURNS = 1000,		/* codes of each read */
};

static u32 looks;		/* how often the ring was looked at */
static int is_written;
static u64 missed;		/* events */

/* A frame of so many codes without a payload. */
static void hear_codes(hearer *hear, u32 direction, u32 code, u32 count)
{
	for (u32 i = 0; i < count; i++)
		made_code(code);
	made_begun(hear, head_of(MESSAGE_CHUNK, direction, ++made_last, 1, direction), NULL, 0);
}

/* A process that had no opening of a device ends. */
static void hear_end(hearer *hear, u32 process)
{
	made_event(hear, head_of(MESSAGE_ENDED, 0, made_last, 1, 0), 0, process, 1);
}

/* The driver is through with the write. All else is after the end: a process ends; a program that had begun takes a
 * number for a read, one for a read that is lost, and one for a write that does not end; and one more process ends. */
static void hear_last(hearer *hear)
{
	made_written(hear, head_of(MESSAGE_WRITTEN, DIRECTION_WRITE, 3, 1, DIRECTION_WRITE), 4);
	hear_end(hear, 2002);
	hear_codes(hear, DIRECTION_READ, BR_NOOP, RETURNS);
	struct message lost = head_of(MESSAGE_LOST, DIRECTION_READ, ++made_last, 1, DIRECTION_READ);
	made_event(hear, lost, REASON_UNREADABLE, 0, 0);
	hear_codes(hear, DIRECTION_WRITE, BC_ENTER_LOOPER, 1);
	hear_end(hear, 2003);
}

/* Somebody else makes the files that PLANTED in the environment names, with spaces between, if they are not there. */
static void plant(void)
{
	char *names = getenv("PLANTED");
	for (char *name = names ? strtok(names, " ") : NULL; name; name = strtok(NULL, " ")) {
		FILE *file = fopen(name, "wx");
		if (file && (fputs("planted", file) < 0 || fclose(file)))
			fail("%s can't be planted", name);
	}
}

/* Two reads come, and something is missed that no later frame lacks. Then the write comes, and the reads that wait for
 * it; what is missed then is told long before they are written. */
long ring_drain(struct ring *ring, hearer *hear)
{
	u64 before = made_last;
	(void)ring;
	looks++;
	if (scene_has("")) {
		made_last = made_is_stopped ? made_last : scene_play(hear, made_last, looks);
		return (long)(made_last - before);
	}
	if (looks == 1)
		plant();
	if (looks <= 2) {
		hear_codes(hear, DIRECTION_READ, BR_NOOP, RETURNS);
		missed += looks == 1;
	} else if (looks == 3) {
		hear_codes(hear, DIRECTION_WRITE, BC_ENTER_LOOPER, 1);
		for (u32 i = 0; i < READS; i++)
			hear_codes(hear, DIRECTION_READ, BR_NOOP, RETURNS);
		hear_end(hear, 2001);
		missed += 3;
		if (!getenv("GOES_ON")) raise(SIGINT);
	} else if (made_is_stopped && !is_written) {
		hear_last(hear);
		is_written = 1;
		return 1;
	}
	return (long)(made_last - before);
}

/* ---- the driver's log of failed transactions, which has the last 32 of them */

static int log_book = -1;

/* The log has the entries up to this one, and one that the driver has only begun. */
static void write_log(u32 newest)
{
	u32 oldest = newest > 32 ? newest - 31 : 1;
	if (ftruncate(log_book, 0) || lseek(log_book, 0, SEEK_SET))
		fail("the log can't be made");
	dprintf(log_book, "0: call  from 0:0 to 0:0 context (null) node 0 handle 0 size 0:0 ret 0/0 l=0 (incomplete)\n");
	for (u32 number = oldest; number <= newest; number++)
		dprintf(log_book, "%u: %s from 7:%u to 8:0 context a node 5\\b node 9 handle 3 size 40:8 ret 29201/-28 l=3409\n",
			number, number % 2 ? "call " : "async", number);
	dprintf(log_book, "%u: reply from 7:7 to 8:0 context a node 0 handle 0 size 0:0 ret 29201/-71 l=1 (incomplete)\n",
		newest + 1);
}

/* What it has at the beginning, and, as FAILURES in the environment says, at the end. */
int made_log(void)
{
	log_book = memfd_create("log", 0);
	write_log(2);
	return log_book;
}

void made_stop(void)
{
	if (getenv("FAILURES"))
		write_log((u32)atoi(getenv("FAILURES")));
}

/* ---- the clocks: the system sleeps before the ring is looked at for the second time */

enum { SLEPT = 1000 };		/* seconds */

int __real_clock_gettime(clockid_t clock, struct timespec *time);

/* With FAILURES in the environment no time passes. So the log of failed transactions is looked at when the recorder
 * begins and when it ends, and never between, be the machine ever so busy. */
int __wrap_clock_gettime(clockid_t clock, struct timespec *time)
{
	static struct timespec first;
	int status = __real_clock_gettime(clock, time);
	if (clock == CLOCK_MONOTONIC && getenv("FAILURES")) {
		if (!first.tv_sec)
			first = *time;
		*time = first;
	}
	if (looks >= 2 && clock == CLOCK_REALTIME && getenv("SET_BACK"))
		time->tv_sec -= SLEPT;
	else if (looks >= 2 && clock != CLOCK_MONOTONIC && !getenv("SET_BACK"))
		time->tv_sec += SLEPT;
	return status;
}

/* ---- what the recorder asks of the system */

/* With LACKING in the environment, two things are missing. */
void need_kernel(void)
{
	if (!getenv("LACKING"))
		return;
	lack("one thing is missing");
	lack("another one is missing");
}

u64 kernel_runs_missed(void) { return missed; }
u64 kernel_calls_without_number(void) { return getenv("CROWDED") && looks >= 3 ? 5 : 0; }

/* With CROWDED in the environment calls are missed, since this process has its share of openings, one that is gone has
 * many, and others have few. */
u32 kernel_holders(struct share *holders, u32 most)
{
	static const u32 openings[] = { SHARE_OF_OPENINGS, 500, 3 };
	u32 processes[] = { (u32)getpid(), 4194303, 1 }, count = 0;
	for (; count < 3 && count < most; count++)
		holders[count] = (struct share){ processes[count], openings[count] };
	return count;
}

void kernel_meet_openings(void)
{
	made_opening(1, 1000, "caller");
	made_thread(DIRECTION_WRITE, 1001, 1000, "caller");
	made_thread(DIRECTION_READ, 1002, 1000, "caller");
	if (scene_has(""))
		scene_meet();
}
