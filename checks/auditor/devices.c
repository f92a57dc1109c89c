/* Devices that are slow, fail or change, for checks/devices. Preloaded, this library replaces each read of the file
   DEVICE_FILE and each write to standard output. Its environment says how:

     READ_MOST, WRITE_MOST            the most bytes that a call gives or takes
     READ_FAILS_AT, WRITE_FAILS_AT    the number of the call that fails, from 1
     READ_ERROR, WRITE_ERROR          the error of that call; without it the call gives or takes no byte
     CHANGE_AT, CHANGE_TO             before the read of this number, the file gets the bytes of this other file

   For each call a line is added to the file DEVICE_LOG, `read ASKED ANSWERED` or `write ASKED ANSWERED`, and the bytes
   that a read gave are added to the file DEVICE_BYTES. Several threads may read the file: they do so one after
   another. One thread writes. */
#define _GNU_SOURCE
#include <errno.h>
#include <fcntl.h>
#include <limits.h>
#include <pthread.h>
#include <stdio.h>
#include <stdlib.h>
#include <sys/stat.h>
#include <sys/syscall.h>
#include <unistd.h>

struct device {
	const char *name;
	long most, fails_at, error, calls;
};

static struct device reader = { .name = "read" }, writer = { .name = "write" };
static long change_at;
static pthread_mutex_t reading = PTHREAD_MUTEX_INITIALIZER;
static struct stat capture;
static int log_file = -1, bytes_file = -1;

static long number(const char *name, long other)
{
	const char *word = getenv(name);
	return word ? atol(word) : other;
}

/* A file to append to, under a high descriptor number, out of the way of the program's own. */
static int appended(const char *name)
{
	const char *path = getenv(name);
	int low = path ? open(path, O_WRONLY | O_APPEND | O_CREAT | O_CLOEXEC, 0600) : -1;
	int file = fcntl(low, F_DUPFD_CLOEXEC, 100);
	close(low);
	return file;
}

__attribute__((constructor)) static void begin(void)
{
	const char *path = getenv("DEVICE_FILE");
	if (!path || stat(path, &capture) != 0)
		_exit(98);
	reader.most = number("READ_MOST", LONG_MAX);
	reader.fails_at = number("READ_FAILS_AT", 0);
	reader.error = number("READ_ERROR", 0);
	writer.most = number("WRITE_MOST", LONG_MAX);
	writer.fails_at = number("WRITE_FAILS_AT", 0);
	writer.error = number("WRITE_ERROR", 0);
	change_at = number("CHANGE_AT", 0);
	log_file = appended("DEVICE_LOG");
	bytes_file = appended("DEVICE_BYTES");
	if (log_file < 0 || bytes_file < 0)
		_exit(98);
}

static int is_capture(int file)
{
	struct stat found;
	return fstat(file, &found) == 0 && found.st_dev == capture.st_dev && found.st_ino == capture.st_ino;
}

static void put(int file, const void *bytes, size_t count)
{
	if (syscall(SYS_write, file, bytes, count) != (long)count)
		_exit(99);
}

/* Gives the file the bytes of the other one. */
static void change(void)
{
	int from = open(getenv("CHANGE_TO"), O_RDONLY | O_CLOEXEC);
	int to = open(getenv("DEVICE_FILE"), O_WRONLY | O_TRUNC | O_CLOEXEC);
	char piece[65536];
	long count;
	while ((count = syscall(SYS_read, from, piece, sizeof piece)) > 0)
		put(to, piece, count);
	if (from < 0 || to < 0 || count < 0)
		_exit(99);
	close(from);
	close(to);
}

/* What the device returns for its next call. */
static long answer(struct device *device, long call, int file, const void *bytes, size_t asked)
{
	if (device->calls == device->fails_at) {
		errno = device->error;
		return device->error ? -1 : 0;
	}
	return syscall(call, file, bytes, asked < (size_t)device->most ? asked : (size_t)device->most);
}

static void told(const struct device *device, size_t asked, long answered)
{
	char line[80];
	put(log_file, line, snprintf(line, sizeof line, "%s %zu %ld\n", device->name, asked, answered));
}

ssize_t read(int file, void *bytes, size_t asked)
{
	if (!is_capture(file))
		return syscall(SYS_read, file, bytes, asked);
	pthread_mutex_lock(&reading);
	if (++reader.calls == change_at)
		change();
	long given = answer(&reader, SYS_read, file, bytes, asked);
	int error = errno;
	told(&reader, asked, given);
	put(bytes_file, bytes, given > 0 ? given : 0);
	pthread_mutex_unlock(&reading);
	errno = error;
	return given;
}

ssize_t write(int file, const void *bytes, size_t asked)
{
	if (file != STDOUT_FILENO)
		return syscall(SYS_write, file, bytes, asked);
	++writer.calls;
	long taken = answer(&writer, SYS_write, file, bytes, asked);
	int error = errno;
	told(&writer, asked, taken);
	errno = error;
	return taken;
}
