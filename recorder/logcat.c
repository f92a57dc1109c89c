#define _GNU_SOURCE
#include "logcat.h"
#include <errno.h>
#include <fcntl.h>
#include <pthread.h>
#include <regex.h>
#include <signal.h>
#include <stdio.h>
#include <stdlib.h>
#include <string.h>
#include <sys/prctl.h>
#include <sys/wait.h>
#include <time.h>
#include <unistd.h>

#define BUFFERS "main,system,crash,events"
#define LONGEST 4096u			/* of a line; more of it is another line */

static regex_t expression;
static pid_t process;
static volatile int is_ending;
static pthread_mutex_t lock = PTHREAD_MUTEX_INITIALIZER;
static struct {				/* under the lock */
	int is_found;
	u64 time;
	char line[LOGCAT_LINE];
} found;

const char *logcat_expect(const char *text)
{
	static char wrong[256];
	int error = regcomp(&expression, text, REG_EXTENDED | REG_NOSUB);
	if (!error)
		return NULL;
	regerror(error, &expression, wrong, sizeof wrong);
	return wrong;
}

int logcat_is_there(void)
{
	char path[4200];
	const char *folders = getenv("PATH"), *end;
	for (; folders && *folders; folders = *end ? end + 1 : end) {
		end = strchrnul(folders, ':');
		snprintf(path, sizeof path, "%.*s/logcat", (int)(end - folders), folders);
		if (!access(path, X_OK))
			return 1;
	}
	return 0;
}

static void note(const char *line)
{
	pthread_mutex_lock(&lock);
	if (!found.is_found) {
		found.is_found = 1;
		found.time = now();
		snprintf(found.line, sizeof found.line, "%.*s", (int)sizeof found.line - 1, line);
	}
	pthread_mutex_unlock(&lock);
}

/* Reads to the end, in a thread of its own: many lines may come, and each takes its time. */
static void *read_log(void *from)
{
	char line[LONGEST];
	while (fgets(line, sizeof line, from)) {
		line[strcspn(line, "\n")] = 0;
		if (!regexec(&expression, line, 0, NULL, 0))
			note(line);
	}
	fclose(from);
	if (!is_ending)
		complain("logcat has ended: nothing is kept any more for what it says");
	return NULL;
}

/* It ends with the recorder. A signal that is for all processes of a terminal is not for it: the recorder ends it. */
static void run(int to, const char *since)
{
	const char *const words[] = { "logcat", "-v", "threadtime", "-b", BUFFERS, "-T", since, NULL };
	struct sigaction usual = { .sa_handler = SIG_DFL };
	sigset_t none;
	sigemptyset(&none);
	sigprocmask(SIG_SETMASK, &none, NULL);
	sigaction(SIGPIPE, &usual, NULL);
	setpgid(0, 0);
	prctl(PR_SET_PDEATHSIG, SIGTERM);
	dup2(to, STDOUT_FILENO);
	execvp(words[0], (char **)words);
	complain("logcat: %s", strerror(errno));
	_exit(127);
}

static int start_reading(int from)
{
	pthread_t thread;
	sigset_t all, before;
	FILE *log = fdopen(from, "r");
	sigfillset(&all);
	pthread_sigmask(SIG_SETMASK, &all, &before);	/* signals go to the loader's thread */
	int error = log ? pthread_create(&thread, NULL, read_log, log) : errno;
	pthread_sigmask(SIG_SETMASK, &before, NULL);
	return error;
}

void logcat_begin(void)
{
	struct timespec wall;
	char since[40];
	int ends[2];
	clock_gettime(CLOCK_REALTIME, &wall);
	snprintf(since, sizeof since, "%lld.%03ld", (long long)wall.tv_sec, wall.tv_nsec / 1000000);
	if (pipe2(ends, O_CLOEXEC)) {
		complain("logcat: %s", strerror(errno));
		return;
	}
	process = fork();
	if (!process)
		run(ends[1], since);
	close(ends[1]);
	int error = process < 0 ? errno : start_reading(ends[0]);
	if (error)
		complain("logcat: %s", strerror(error));
}

int logcat_found(u64 *time, char *line)
{
	pthread_mutex_lock(&lock);
	int is_found = found.is_found;
	*time = found.time;
	strcpy(line, found.line);
	found.is_found = 0;
	pthread_mutex_unlock(&lock);
	return is_found;
}

void logcat_end(void)
{
	if (process <= 0)
		return;
	is_ending = 1;
	kill(process, SIGTERM);
	waitpid(process, NULL, 0);
	process = 0;
}
