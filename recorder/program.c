#define _GNU_SOURCE
#include "program.h"
#include "common.h"
#include <errno.h>
#include <fcntl.h>
#include <signal.h>
#include <stdio.h>
#include <string.h>
#include <sys/wait.h>
#include <unistd.h>

static const int signals[] = { SIGINT, SIGTERM, SIGHUP, SIGPIPE };	/* whose actions the recorder changes */
#define SIGNALS (sizeof signals / sizeof *signals)

static struct sigaction kept[SIGNALS];
static pid_t process;
static int gate[2], ended, status;

void program_keep_signals(void)
{
	for (size_t i = 0; i < SIGNALS; i++)
		sigaction(signals[i], NULL, kept + i);
}

static void run(char **words)
{
	char byte;
	close(gate[1]);
	for (size_t i = 0; i < SIGNALS; i++)
		sigaction(signals[i], kept + i, NULL);
	if (read(gate[0], &byte, 1) != 1)
		_exit(126);			/* no recording has begun, so the program is not run */
	execvp(words[0], words);
	int error = errno;
	complain("%s: %s", words[0], strerror(error));
	_exit(error == ENOENT ? 127 : 126);
}

void program_prepare(char **words)
{
	if (pipe2(gate, O_CLOEXEC))
		fail("no pipe: %s", strerror(errno));
	process = fork();
	if (process < 0)
		fail("no process for %s: %s", words[0], strerror(errno));
	if (process == 0)
		run(words);
	close(gate[0]);
}

void program_go(void)
{
	if (process && write(gate[1], "g", 1) != 1)
		complain("the program could not be started");
	if (process)
		close(gate[1]);
}

int program_is_there(void)
{
	return process != 0;
}

int program_has_ended(void)
{
	if (process && !ended && waitpid(process, &status, WNOHANG) == process)
		ended = 1;
	return ended || !process;
}

void program_wait(void)
{
	if (process && !ended && waitpid(process, &status, 0) == process)
		ended = 1;
}

int program_status(void)
{
	if (!ended)
		return 0;
	return WIFSIGNALED(status) ? 128 + WTERMSIG(status) : WEXITSTATUS(status);
}
