/* Preloaded into programs, this makes the disk of the folder FULL_FOLDER full: all that writes there is counted, in the
   file FULL_COUNT that the programs share, and from call number FULL_FROM on there is no space left. */
#define _GNU_SOURCE
#include <dlfcn.h>
#include <errno.h>
#include <fcntl.h>
#include <stdarg.h>
#include <stdatomic.h>
#include <stdio.h>
#include <stdlib.h>
#include <string.h>
#include <sys/mman.h>
#include <sys/stat.h>
#include <sys/statvfs.h>
#include <sys/uio.h>
#include <unistd.h>

static const char *folder;
static atomic_long *count;
static long from;

__attribute__((constructor)) static void begin(void)
{
	int file = open(getenv("FULL_COUNT"), O_RDWR | O_CLOEXEC);
	count = mmap(NULL, sizeof *count, PROT_READ | PROT_WRITE, MAP_SHARED, file, 0);
	if (file < 0 || count == MAP_FAILED)
		_exit(99);
	close(file);
	folder = getenv("FULL_FOLDER");
	from = atol(getenv("FULL_FROM"));
}

static int is_there(const char *path)
{
	return path && folder && strncmp(path, folder, strlen(folder)) == 0;
}

static int is_of(int file)
{
	char link[64], path[4096];
	snprintf(link, sizeof link, "/proc/self/fd/%d", file);
	ssize_t length = readlink(link, path, sizeof path - 1);
	path[length < 0 ? 0 : length] = '\0';
	return is_there(path);
}

static int refused(int counts)
{
	if (!counts || atomic_fetch_add(count, 1) + 1 < from)
		return 0;
	errno = ENOSPC;
	return 1;
}

#define NEXT(name) ((__typeof__(&name))dlsym(RTLD_NEXT, #name))

ssize_t write(int file, const void *data, size_t size)
{
	return refused(is_of(file)) ? -1 : NEXT(write)(file, data, size);
}

ssize_t writev(int file, const struct iovec *parts, int some)
{
	return refused(is_of(file)) ? -1 : NEXT(writev)(file, parts, some);
}

ssize_t pwrite(int file, const void *data, size_t size, off_t at)
{
	return refused(is_of(file)) ? -1 : NEXT(pwrite)(file, data, size, at);
}

ssize_t pwrite64(int file, const void *data, size_t size, off64_t at)
{
	return refused(is_of(file)) ? -1 : NEXT(pwrite64)(file, data, size, at);
}

int fsync(int file)
{
	return refused(is_of(file)) ? -1 : NEXT(fsync)(file);
}

int mkdir(const char *path, mode_t mode)
{
	return refused(is_there(path)) ? -1 : NEXT(mkdir)(path, mode);
}

/* What opens a file that is not there makes it. */
static int made(const char *path, int flags)
{
	return (flags & O_CREAT) && is_there(path) && access(path, F_OK) != 0;
}

int open(const char *path, int flags, ...)
{
	va_list words;
	va_start(words, flags);
	mode_t mode = flags & O_CREAT ? va_arg(words, mode_t) : 0;
	va_end(words);
	return refused(made(path, flags)) ? -1 : NEXT(open)(path, flags, mode);
}

int open64(const char *path, int flags, ...)
{
	va_list words;
	va_start(words, flags);
	mode_t mode = flags & O_CREAT ? va_arg(words, mode_t) : 0;
	va_end(words);
	return refused(made(path, flags)) ? -1 : NEXT(open64)(path, flags, mode);
}

static void no_room(fsblkcnt_t *free, fsblkcnt_t *available)
{
	if (count && atomic_load(count) >= from)
		*free = *available = 0;
}

int statvfs(const char *path, struct statvfs *disk)
{
	int status = NEXT(statvfs)(path, disk);
	if (status == 0 && is_there(path))
		no_room(&disk->f_bfree, &disk->f_bavail);
	return status;
}

int statvfs64(const char *path, struct statvfs64 *disk)
{
	int status = NEXT(statvfs64)(path, disk);
	if (status == 0 && is_there(path))
		no_room(&disk->f_bfree, &disk->f_bavail);
	return status;
}
