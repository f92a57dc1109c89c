/* The processes of a scenario: how they start, how the driver's books are saved, how they end. See raw.h. */
#define _GNU_SOURCE
#include <dirent.h>
#include <fcntl.h>
#include <signal.h>
#include <stdio.h>
#include <stdlib.h>
#include <string.h>
#include <sys/prctl.h>
#include <sys/syscall.h>
#include <sys/wait.h>
#include <time.h>
#include <unistd.h>
#include "raw.h"

static const char *directory;

/* Seconds; so long that they are no limit for a guest that has little of a processor. */
enum { LONGEST_WAIT = 600 };
unsigned longest_life = 3600;

pid_t start(const char *name, void (*process)(void))
{
	fflush(NULL);
	pid_t started = fork();
	if (started < 0) fail("fork");
	if (!started) {
		prctl(PR_SET_NAME, name);
		prctl(PR_SET_PDEATHSIG, SIGKILL);
		alarm(longest_life);
		process();
		_exit(0);
	}
	shared->process[shared->processes++] = started;
	return started;
}

pid_t start_ready(const char *name, void (*process)(void))
{
	int before = shared->ready;
	pid_t started = start(name, process);
	wait_until(&shared->ready, before + 1);
	return started;
}

void run_to_rest(int count, const char *name, void (*process)(void))
{
	int before = shared->resting;
	for (int i = 0; i < count; i++) start(name, process);
	wait_until(&shared->resting, before + count);
}

pthread_t start_thread(void *(*work)(void *), struct opening *opening)
{
	pthread_t thread;
	if (pthread_create(&thread, NULL, work, opening)) fail("pthread_create");
	return thread;
}

void wait_until(_Atomic int *counter, int least)
{
	time_t began = time(NULL);
	while (*counter < least) {
		if (time(NULL) > began + LONGEST_WAIT) fail("a process of the scenario did not come so far");
		usleep(1000);
	}
}

void wait_long(_Atomic int *counter, int least)
{
	while (*counter < least) usleep(10000);
}

void end_of(pid_t process)
{
	int status;
	if (waitpid(process, &status, 0) != process || status) fail("a process of the scenario did not end well");
}

void kill_process(pid_t process)
{
	kill(process, SIGKILL);
	waitpid(process, NULL, 0);
}

void make_file(const char *name)
{
	char path[300];
	snprintf(path, sizeof path, "%s/%s", directory, name);
	int file = open(path, O_WRONLY | O_CREAT | O_EXCL, 0600);
	if (file < 0) fail(path);
	close(file);
}

void wait_for_file(const char *name)
{
	char path[300];
	time_t began = time(NULL);
	snprintf(path, sizeof path, "%s/%s", directory, name);
	while (access(path, F_OK)) {
		if (time(NULL) > began + LONGEST_WAIT) fail(path);
		usleep(10000);
	}
}

void rest_until_stopped(void)
{
	make_file("rested");
	wait_for_file("stop");
}

static void add_file(const char *from, const char *to)
{
	static char buffer[1 << 16];
	ssize_t got;
	int in = open(from, O_RDONLY), out = open(to, O_WRONLY | O_CREAT | O_APPEND, 0600);
	if (in < 0 || out < 0) fail(from);
	while ((got = read(in, buffer, sizeof buffer)) > 0)
		if (write(out, buffer, got) != got) fail(to);
	close(in);
	close(out);
}

void in_directory(const char *name)
{
	directory = name;
}

/* Where the process has mapped devices. A program on libgbinder does not say so itself. */
static void write_mappings(FILE *file, pid_t process)
{
	char path[40], line[512], device[64];
	unsigned long long address;
	snprintf(path, sizeof path, "/proc/%d/maps", process);
	FILE *maps = fopen(path, "r");
	while (maps && fgets(line, sizeof line, maps))
		if (strstr(line, "binder") &&
		    sscanf(line, "%llx-%*s %*s %*s %*s %*s /dev/%63s", &address, device) == 2)
			fprintf(file, "%d %s %#llx\n", process, basename(device), address);
	if (maps) fclose(maps);
}

/* When the books were saved, and where the devices are mapped: newer kernels write where in the mapping a buffer is. */
static void write_moment(const char *suffix)
{
	char path[300];
	struct timespec now;
	snprintf(path, sizeof path, "%s/moment%s", directory, suffix);
	FILE *file = fopen(path, "w");
	if (!file) fail(path);
	clock_gettime(CLOCK_MONOTONIC, &now);
	fprintf(file, "%lld\n", now.tv_sec * 1000000000LL + now.tv_nsec);
	for (int i = 0; i < shared->mappings && i < 1024; i++)
		fprintf(file, "%d %s %#llx\n", shared->mapping[i].process, shared->mapping[i].device,
			(unsigned long long)shared->mapping[i].address);
	for (int i = 0; i < shared->processes; i++) write_mappings(file, shared->process[i]);
	if (fclose(file)) fail(path);
}

/* The driver in C has its books in debugfs, and the one in Rust in its binderfs; of two drivers the one in C comes
 * first. */
static const char *const folders[] = {"/sys/kernel/debug/binder", "/dev/binderfs/binder_logs"};

int openings_in_books(void)
{
	char path[80], line[512];
	int count = 0;
	for (size_t k = 0; k < sizeof folders / sizeof *folders; k++) {
		snprintf(path, sizeof path, "%s/state", folders[k]);
		FILE *state = fopen(path, "r");
		while (state && fgets(line, sizeof line, state)) count += !strncmp(line, "proc ", 5);
		if (state) fclose(state);
	}
	return count;
}

/* Only the driver in C has the last of them. */
void dump_books(const char *suffix)
{
	static const char *const books[] = {"state", "stats", "transactions", "failed_transaction_log"};
	char from[80], to[300];
	for (size_t i = 0; i < sizeof books / sizeof *books; i++) {
		snprintf(to, sizeof to, "%s/%s%s", directory, books[i], suffix);
		unlink(to);
		for (size_t k = 0; k < sizeof folders / sizeof *folders; k++) {
			snprintf(from, sizeof from, "%s/%s", folders[k], books[i]);
			if (!access(from, R_OK)) add_file(from, to);
		}
	}
	write_moment(suffix);
}

void nothing(int signal)
{
	(void)signal;
}

/* Interrupts each thread that waits in the driver: it then has no call under way, and begins no other. */
static void interrupt(pid_t process)
{
	char path[40];
	snprintf(path, sizeof path, "/proc/%d/task", process);
	DIR *tasks = opendir(path);
	struct dirent *entry;
	if (!tasks) return;
	while ((entry = readdir(tasks)) != NULL)
		if (atoi(entry->d_name)) syscall(SYS_tgkill, process, atoi(entry->d_name), SIGUSR1);
	closedir(tasks);
}

void end_all(void)
{
	shared->ending = 1;
	for (int i = 0; i < shared->processes; i++) interrupt(shared->process[i]);
	usleep(200000);
	for (int i = 0; i < shared->processes; i++) kill(shared->process[i], SIGKILL);
	while (wait(NULL) > 0) continue;
}
