/* keeping WORD..: the recorder on these words, with a driver that is made up: 500 calls a second go on in a time of its
 * own, and PLAN in the environment has what else comes, as SECOND:WHAT with spaces between:
 *
 *   hang, long  a call that is answered 12 s later, or 100 s later
 *   pool        a call that no thread is free to take for 4 s
 *   refused     300 sends within a second
 *   death       the end of the process `victim`
 *   touch       the file WATCHED
 *   signal      SIGUSR1; `end`: SIGINT
 *   quiet       no more calls
 *
 * What is kept is followed, too: at the call of the system with the number KILL_AT that makes, fills, secures or renames
 * a part of a set the process ends at once; with POWER in the environment what was not secured by then is lost. FREE is
 * how many bytes the disk has free, FULL_AT the number of the call from which on it has none, and with NO_LINKS a file
 * can have no second name. See keeping. */
#define _GNU_SOURCE
#include "kernel.h"
#include "kit.h"
#include "made_driver.h"
#include "made_frame.h"
#include <dirent.h>
#include <errno.h>
#include <signal.h>
#include <stdio.h>
#include <stdlib.h>
#include <string.h>
#include <sys/stat.h>
#include <sys/statvfs.h>
#include <time.h>
#include <unistd.h>

enum { CLIENT = 1, SERVICE, HANGING, POOL, WAITING, VICTIM, THREADS };	/* threads, each with an opening of its own process */
enum { CALLS_OF_LOOK = 25, LOOKS_OF_SECOND = 20 };

static const u32 process_of[THREADS] = { 0, 2000, 3000, 4000, 3000, 5000, 6000 };
static const char *const name_of[THREADS] = { "", "client", "service", "camera_app", "service", "impatient", "victim" };
static volatile u32 looks;
/* ---- frames */

static const char token[] = "\0\0\0\0\377\377\377\377TSYS\14\0\0\0t\0e\0s\0t\0.\0I\0C\0a\0m\0e\0r\0a\0\0\0\0\0";
static void add_transaction(u32 word, u32 code, u32 flags, u32 sender, u64 data)
{
	made_send(word, (struct binder_transaction_data){ .target.handle = 5, .code = code, .flags = flags,
							  .data_size = data, .sender_pid = (pid_t)sender });
}

static struct message head(u32 type, u32 direction, u32 thread)
{
	return head_of(type, direction, made_last, process_of[thread] / 1000, thread);
}

/* A frame of the commands; their last record may have the token as its data. */
static void hear(hearer *to, u32 direction, u32 thread, int has_token)
{
	made_last++;
	made_frame(to, head(MESSAGE_CHUNK, direction, thread), token, has_token ? sizeof token - 1 : 0);
}

static void send_call(hearer *to, u32 thread, u32 code)
{
	add_transaction(BC_TRANSACTION, code, 0, 0, sizeof token - 1);
	hear(to, DIRECTION_WRITE, thread, 1);
}

static void take_call(hearer *to, u32 thread, u32 sender, u32 code)
{
	add_transaction(BR_TRANSACTION, code, 0, process_of[sender], sizeof token - 1);
	hear(to, DIRECTION_READ, thread, 1);
}

static void answer_call(hearer *to, u32 thread, u32 sender)
{
	add_transaction(BC_REPLY, 0, 0, 0, 4);
	hear(to, DIRECTION_WRITE, thread, 0);
	made_code(BR_TRANSACTION_COMPLETE);
	hear(to, DIRECTION_READ, thread, 0);
	made_code(BR_TRANSACTION_COMPLETE);
	add_transaction(BR_REPLY, 0, 0, 0, 4);
	hear(to, DIRECTION_READ, sender, 0);
}

static void call(hearer *to)
{
	send_call(to, CLIENT, 1);
	take_call(to, SERVICE, CLIENT, 1);
	answer_call(to, SERVICE, CLIENT);
}

static void refuse_send(hearer *to)
{
	add_transaction(BC_TRANSACTION, 9, TF_ONE_WAY, 0, 0);
	hear(to, DIRECTION_WRITE, WAITING, 0);
	made_code(BR_FAILED_REPLY);
	hear(to, DIRECTION_READ, WAITING, 0);
}

/* ---- the plan */

static u32 open_until, pool_at, refused_until, is_quiet;	/* looks; 0: nothing of it is going on */

static void touch(void)
{
	FILE *file = fopen(getenv("WATCHED"), "w");
	if (!file || fclose(file))
		fail("WATCHED can't be made");
}

static void do_planned(hearer *to, const char *what)
{
	if (!strcmp(what, "hang") || !strcmp(what, "long")) {
		send_call(to, HANGING, 7);
		take_call(to, POOL, HANGING, 7);
		open_until = looks + (!strcmp(what, "long") ? 100 : 12) * LOOKS_OF_SECOND;
	} else if (!strcmp(what, "pool")) {
		send_call(to, WAITING, 7);		/* once served, it is known who gets it */
		take_call(to, POOL, WAITING, 7);
		answer_call(to, POOL, WAITING);
		send_call(to, HANGING, 7);
		take_call(to, POOL, HANGING, 7);
		send_call(to, CLIENT, 1);
		take_call(to, SERVICE, CLIENT, 1);
		send_call(to, WAITING, 7);
		pool_at = looks;
		is_quiet = 1;
	} else if (!strcmp(what, "refused")) {
		refused_until = looks + LOOKS_OF_SECOND;
	} else if (!strcmp(what, "death")) {
		made_event(to, head(MESSAGE_ENDED, 0, VICTIM), process_of[VICTIM], process_of[VICTIM], 1);
	} else if (!strcmp(what, "touch")) {
		touch();
	} else if (!strcmp(what, "signal")) {
		raise(SIGUSR1);
	} else if (!strcmp(what, "quiet")) {
		is_quiet = 1;
	} else if (!strcmp(what, "end")) {
		raise(SIGINT);
	}
}

static void go_on(hearer *to)
{
	if (open_until == looks)
		answer_call(to, POOL, HANGING);
	if (pool_at && looks == pool_at + 4 * LOOKS_OF_SECOND) {
		answer_call(to, SERVICE, CLIENT);
		answer_call(to, POOL, HANGING);
		take_call(to, POOL, WAITING, 7);
		answer_call(to, POOL, WAITING);
		pool_at = 0;
		is_quiet = 0;
	}
	for (u32 i = 0; looks < refused_until && i < 300 / LOOKS_OF_SECOND; i++)
		refuse_send(to);
	for (u32 i = 0; !is_quiet && i < CALLS_OF_LOOK; i++)
		call(to);
}

long ring_drain(struct ring *ring, hearer *to)
{
	u64 before = made_last;
	char plan[1024];
	(void)ring;
	if (made_is_stopped)
		return 0;
	looks++;
	snprintf(plan, sizeof plan, "%s", getenv("PLAN"));
	for (char *one = strtok(plan, " "); one; one = strtok(NULL, " "))
		if (looks == (u32)(atof(one) * LOOKS_OF_SECOND + 0.5))
			do_planned(to, strchr(one, ':') + 1);
	go_on(to);
	return (long)(made_last - before);
}

/* ---- the time: each look is a twentieth of a second later */

int __real_clock_gettime(clockid_t clock, struct timespec *time);
int __real_nanosleep(const struct timespec *time, struct timespec *left);

int __wrap_clock_gettime(clockid_t clock, struct timespec *time)
{
	u64 passed = looks * (1000000000ull / LOOKS_OF_SECOND);
	if (clock != CLOCK_MONOTONIC && clock != CLOCK_REALTIME && clock != CLOCK_BOOTTIME)
		return __real_clock_gettime(clock, time);
	*time = (struct timespec){ (time_t)(passed / 1000000000u) + (clock == CLOCK_REALTIME ? 1800000000 : 1000),
				   (long)(passed % 1000000000u) };
	return 0;
}

int __wrap_nanosleep(const struct timespec *time, struct timespec *left)
{
	struct timespec moment = { .tv_nsec = 200000 };
	(void)time;
	return __real_nanosleep(&moment, left);
}

/* ---- the disk */

static u32 calls;			/* of the system, that are about a set */
static int power_is_lost;
#define MOST_SECURED 4096
static ino_t secured[MOST_SECURED];	/* files of which all is on the disk */
static u32 secured_count;

static int is_secured(ino_t inode)
{
	for (u32 i = 0; i < secured_count; i++)
		if (secured[i] == inode)
			return 1;
	return 0;
}

static u32 number_in(const char *name)
{
	const char *text = getenv(name);
	return text ? (u32)atoi(text) : 0;
}

/* What a loss of power leaves of a folder: of a file that was not secured zeros, and nothing if its folder was not. */
static void lose_folder(const char *path, int has_names)
{
	char name[8192];
	struct stat status;
	DIR *folder = opendir(path);
	for (const struct dirent *entry; folder && (entry = readdir(folder));) {
		snprintf(name, sizeof name, "%.7900s/%s", path, entry->d_name);
		if (entry->d_name[0] == '.' || stat(name, &status))
			continue;
		if (!has_names)
			unlink(name);
		else if (!is_secured(status.st_ino) && (truncate(name, 0) || truncate(name, status.st_size)))
			fail("%s", name);
	}
	if (folder)
		closedir(folder);
}

static void lose_power(void)
{
	const char *parent = getenv("POWER");
	char path[8192];
	struct stat status;
	DIR *folder = opendir(parent);
	for (const struct dirent *entry; folder && (entry = readdir(folder));) {
		snprintf(path, sizeof path, "%.7900s/%s", parent, entry->d_name);
		if (strstr(entry->d_name, ".ke") && !stat(path, &status))
			lose_folder(path, is_secured(status.st_ino));
	}
}

/* Returns 1 if the disk is full by now. */
static int count_call(void)
{
	calls++;
	if (calls == number_in("KILL_AT")) {
		if (getenv("POWER") && !power_is_lost++)
			lose_power();
		kill(getpid(), SIGKILL);
	}
	errno = ENOSPC;
	return getenv("FULL_AT") && calls >= number_in("FULL_AT");
}

int __real_mkdir(const char *path, mode_t mode);
int __wrap_mkdir(const char *path, mode_t mode) { return count_call() ? -1 : __real_mkdir(path, mode); }

int __real_linkat(int from, const char *old, int to, const char *name, int flags);
int __wrap_linkat(int from, const char *old, int to, const char *name, int flags)
{
	if (count_call())
		return -1;
	errno = EPERM;
	return getenv("NO_LINKS") ? -1 : __real_linkat(from, old, to, name, flags);
}

ssize_t __real_write(int to, const void *bytes, size_t count);
ssize_t __wrap_write(int to, const void *bytes, size_t count)
{
	return count_call() ? -1 : __real_write(to, bytes, count);
}

int __real_fsync(int file);
int __wrap_fsync(int file)
{
	struct stat status;
	if (count_call())
		return -1;
	if (!fstat(file, &status) && secured_count < MOST_SECURED)
		secured[secured_count++] = status.st_ino;
	return 0;
}

int __real_rename(const char *from, const char *to);
int __wrap_rename(const char *from, const char *to) { return count_call() ? -1 : __real_rename(from, to); }

int __real_fstatvfs(int file, struct statvfs *space);
int __wrap_fstatvfs(int file, struct statvfs *space)
{
	int status = __real_fstatvfs(file, space);
	if (getenv("FREE"))
		space->f_bavail = strtoull(getenv("FREE"), NULL, 10) / space->f_frsize;
	return status;
}

void kernel_meet_openings(void)
{
	for (u32 thread = 1; thread < THREADS; thread++) {
		made_opening(process_of[thread] / 1000, process_of[thread], name_of[thread]);
		made_thread(thread, process_of[thread] + thread, process_of[thread], name_of[thread]);
	}
}
