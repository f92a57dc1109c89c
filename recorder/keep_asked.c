#define _GNU_SOURCE
#include "keep_asked.h"
#include "keep.h"
#include "kernel.h"
#include <errno.h>
#include <limits.h>
#include <poll.h>
#include <signal.h>
#include <stdio.h>
#include <stdlib.h>
#include <string.h>
#include <sys/socket.h>
#include <sys/un.h>
#include <unistd.h>

#define NAME "binder_audit.record."	/* of a socket; the process id follows */
#define MOST_WAITING 8
#define LOOK_EVERY 100000000u		/* nanoseconds */
#define LONGEST_REQUEST (PATH_MAX + 16)
#define LONGEST_ANSWER 5400
#define ANSWERS_WITHIN 600000		/* milliseconds: a slow disk may take minutes for much */

/* ---- the recorder that is asked */

static volatile sig_atomic_t is_signalled;
static int listener = -1;
static char own_path[PATH_MAX];		/* the whole path of OUT */
static struct waiting {
	int socket;
	u32 asked;			/* the number of the set that it waits for; 0: none was asked for yet */
} waiting[MOST_WAITING];
static u32 waiting_count, due;		/* due: somebody asked since the last set was begun */
static u64 looked;

/* The whole path of OUT: of its folder, which is there, and its last part. */
static void whole_path(const char *out, char *to)
{
	char folder[PATH_MAX];
	const char *slash = strrchr(out, '/'), *base = slash ? slash + 1 : out;
	snprintf(folder, sizeof folder, "%.*s", (int)(base - out), out);
	if (!realpath(*folder ? folder : ".", to))
		*to = 0;
	size_t used = strlen(to);
	snprintf(to + used, PATH_MAX - used, "%s%s", used > 1 ? "/" : "", base);
}

static socklen_t address_of(struct sockaddr_un *address, u32 process)
{
	*address = (struct sockaddr_un){ .sun_family = AF_UNIX };
	int length = snprintf(address->sun_path + 1, sizeof address->sun_path - 1, NAME "%u", process);
	return (socklen_t)(offsetof(struct sockaddr_un, sun_path) + 1 + (size_t)length);
}

static void stop_listening(void)
{
	if (listener >= 0)
		close(listener);
	listener = -1;
}

void keep_asked_begin(const char *out)
{
	struct sockaddr_un address;
	socklen_t length = address_of(&address, (u32)getpid());
	whole_path(out, own_path);
	listener = socket(AF_UNIX, SOCK_SEQPACKET | SOCK_NONBLOCK | SOCK_CLOEXEC, 0);
	if (listener >= 0 && !bind(listener, (void *)&address, length) && !listen(listener, MOST_WAITING))
		return;
	complain("--keep can't ask this recorder: %s", strerror(errno));
	stop_listening();
}

void keep_asked_by_signal(int number)
{
	is_signalled = number;
}

/* Who asks must be root, or the recorder's user. */
static int may_ask(int socket)
{
	struct ucred peer;
	socklen_t length = sizeof peer;
	return !getsockopt(socket, SOL_SOCKET, SO_PEERCRED, &peer, &length) && (!peer.uid || peer.uid == geteuid());
}

static void answer(int socket, const char *format, ...) __attribute__((format(printf, 2, 3)));
static void answer(int socket, const char *format, ...)
{
	char text[LONGEST_ANSWER];
	va_list arguments;
	va_start(arguments, format);
	int length = vsnprintf(text, sizeof text, format, arguments);
	va_end(arguments);
	(void)send(socket, text, (size_t)length < sizeof text ? (size_t)length : sizeof text - 1, MSG_NOSIGNAL | MSG_DONTWAIT);
	close(socket);
}

static void take_new(void)
{
	int socket;
	while (waiting_count < MOST_WAITING && (socket = accept4(listener, NULL, NULL, SOCK_NONBLOCK | SOCK_CLOEXEC)) >= 0)
		if (may_ask(socket))
			waiting[waiting_count++] = (struct waiting){ socket, 0 };
		else
			answer(socket, "failed it takes root, or the user who records");
}

/* Reads what it asks for, once. Returns 0 if it is gone, or was answered. */
static int read_request(struct waiting *one)
{
	char text[LONGEST_REQUEST];
	ssize_t length = recv(one->socket, text, sizeof text - 1, 0);
	if (length < 0 && errno == EAGAIN)
		return 1;
	if (length <= 0) {
		close(one->socket);
		return 0;
	}
	text[length] = 0;
	if (strncmp(text, "keep ", 5) || (text[5] && strcmp(text + 5, own_path))) {
		answer(one->socket, "other");
		return 0;
	}
	one->asked = keep_result()->asked + 1;
	due = 1;
	return 1;
}

/* Answers it if its set is kept, or is not. Returns 0 then. */
static int is_still_waiting(const struct waiting *one)
{
	const struct kept *kept = keep_result();
	if (kept->asked < one->asked || (!kept->folder[0] && !kept->failure[0]))
		return 1;
	if (kept->folder[0])
		answer(one->socket, "kept %s", kept->folder);
	else
		answer(one->socket, "failed %s", kept->failure);
	return 0;
}

static void look_at_waiting(void)
{
	u32 left = 0;
	for (u32 i = 0; i < waiting_count; i++)
		if (waiting[i].asked ? is_still_waiting(waiting + i) : read_request(waiting + i))
			waiting[left++] = waiting[i];
	waiting_count = left;
}

void keep_asked_look(void)
{
	u64 time = now();
	if (is_signalled) {
		is_signalled = 0;
		due = 1;
	}
	if (listener >= 0 && time - looked >= LOOK_EVERY) {
		take_new();
		look_at_waiting();
		looked = time;
	}
	struct why_kept why = { .word = "asked", .time = time, .after = kernel_last_number(), .words = "somebody asked for it" };
	if (due && keep_ask(&why))
		due = 0;
}

void keep_asked_end(void)
{
	look_at_waiting();
	stop_listening();
	for (u32 i = 0; i < waiting_count; i++)
		answer(waiting[i].socket, "failed the recording has ended");
	waiting_count = 0;
}

/* ---- who asks */

/* Sends the request to the recorder with this process id. Returns a socket that its answer comes by, or one below 0. */
static int ask(u32 process, const char *request)
{
	struct sockaddr_un address;
	socklen_t length = address_of(&address, process);
	int to = socket(AF_UNIX, SOCK_SEQPACKET | SOCK_CLOEXEC, 0);
	if (to < 0 || connect(to, (void *)&address, length) || send(to, request, strlen(request), MSG_NOSIGNAL) < 0) {
		if (to >= 0)
			close(to);
		return -1;
	}
	return to;
}

/* Waits for the answer. Returns 0 if there is none, or it is that of a recorder with other files. */
static int has_answer(int from, char *text)
{
	struct pollfd wait = { .fd = from, .events = POLLIN };
	ssize_t length = -1;
	if (poll(&wait, 1, ANSWERS_WITHIN) > 0)
		length = recv(from, text, LONGEST_ANSWER - 1, 0);
	close(from);
	text[length > 0 ? length : 0] = 0;
	return length > 0 && strcmp(text, "other");
}

/* The process ids of recorders that can be asked, by the names of sockets. Returns how many there are. */
static u32 find_recorders(u32 *processes, u32 most)
{
	char line[512];
	u32 count = 0;
	FILE *list = fopen("/proc/net/unix", "r");
	while (list && count < most && fgets(line, sizeof line, list)) {
		const char *name = strstr(line, " @" NAME);
		if (name)
			processes[count++] = (u32)strtoul(name + sizeof " @" NAME - 1, NULL, 10);
	}
	if (list)
		fclose(list);
	return count;
}

static int tell(const char *text)
{
	if (!strncmp(text, "kept ", 5)) {
		printf("%s\n", text + 5);
		return 0;
	}
	complain("nothing is kept: %s", strncmp(text, "failed ", 7) ? text : text + 7);
	return 1;
}

int keep_request(const char *out)
{
	char request[LONGEST_REQUEST], path[PATH_MAX] = "", text[LONGEST_ANSWER];
	u32 processes[64], count = find_recorders(processes, 64);
	if (out)
		whole_path(out, path);
	snprintf(request, sizeof request, "keep %s", path);
	if (!out && count > 1) {
		complain("%u recorders run with --files: -o OUT says which one is asked", count);
		return 1;
	}
	for (u32 i = 0; i < count; i++) {
		int from = ask(processes[i], request);
		if (from >= 0 && has_answer(from, text))
			return tell(text);
	}
	complain("nothing is kept: no recorder runs with --files%s%s", out ? " into " : "", out ? path : "");
	return 1;
}
