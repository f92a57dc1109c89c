/* A /proc that is made up, in place of that of the system, for a program that is linked with --wrap=fopen,open,fstat,pread:
 * names and command lines of any bytes, maps that lie, and files that change while they are read. It has no promise but
 * that it ends. */
#define _GNU_SOURCE
#include "kit.h"
#include <fcntl.h>
#include <stdarg.h>
#include <string.h>
#include <sys/mman.h>
#include <sys/stat.h>
#include <unistd.h>

enum { LONGEST = 6000, FIELDS = 60 };

static _Thread_local u64 state = 88172645463325252u;

static u32 any(u32 count)
{
	state ^= state << 13;
	state ^= state >> 7;
	state ^= state << 17;
	return (u32)(state >> 32) % count;
}

/* Text with any bytes, mostly letters. */
static u32 put_word(char *to, u32 most)
{
	u32 bytes = any(64) ? any(most < 24 ? most : 24) : any(most);
	for (u32 i = 0; i < bytes; i++)
		to[i] = (char)(any(8) ? 'a' + (int)any(26) : (int)any(256));
	return bytes;
}

/* Mostly the line of a process that began at time 0, as those of the ring say. */
static u32 put_stat(char *to)
{
	u32 at = (u32)sprintf(to, "%u (", any(4000));
	at += put_word(to + at, 60);
	at += (u32)sprintf(to + at, ") S");
	for (int field = 3; field < 22; field++)
		at += (u32)sprintf(to + at, " %u", field == 21 && any(4) ? 0 : any(1000));
	at += (u32)sprintf(to + at, " 1\n");
	return any(8) ? at : any(at);
}

/* A line of maps: of any places, in any order, of a file that may be there. */
static u32 put_map(char *to)
{
	static const char *const rights[] = { "r-xp", "r-xp", "rwxs", "r--p", "x", "---" };
	unsigned long long start = (unsigned long long)any(64) << 12, end = start + ((unsigned long long)any(16) << 12);
	if (!any(16))
		end = (unsigned long long)state;
	u32 at = (u32)sprintf(to, "%llx-%llx %s %llx %02x:%02x %u ", start, end, rights[any(6)],
			      any(16) ? (unsigned long long)any(64) << 12 : (unsigned long long)state, any(4), any(4), any(8));
	if (any(8))
		to[at++] = '/';
	at += any(8) ? put_word(to + at, 4000) : (u32)sprintf(to + at, "[vdso]");
	to[at++] = '\n';
	return at;
}

/* What of it is next, each time anew. */
static ssize_t read_on(void *left, char *to, size_t room)
{
	char text[LONGEST];
	u32 bytes, *lines = left;
	if (!*lines)
		return 0;
	--*lines;
	bytes = put_map(text);
	bytes = bytes < room ? bytes : (u32)room;
	memcpy(to, text, bytes);
	return (ssize_t)bytes;
}

static FILE *maps(void)
{
	static _Thread_local u32 lines;
	lines = any(16) ? any(20) : any(6000);
	return fopencookie(&lines, "r", (cookie_io_functions_t){ .read = read_on });
}

static FILE *text_of(const char *name)
{
	static _Thread_local char text[LONGEST];
	u32 bytes = !strcmp(name, "stat") ? put_stat(text) : put_word(text, LONGEST);
	return bytes ? fmemopen(text, bytes, "r") : NULL;
}

FILE *__real_fopen(const char *path, const char *how);
FILE *__wrap_fopen(const char *path, const char *how)
{
	const char *name = strrchr(path, '/');
	if (strncmp(path, "/proc/", 6) || !strncmp(path, "/proc/self", 10))
		return __real_fopen(path, how);
	if (!any(16))
		return NULL;
	return !strcmp(name, "/maps") ? maps() : text_of(name + 1);
}

/* ---- files that are mapped */

/* Changes some of the bytes, and at times how many there are. */
static void change(int file)
{
	u8 bytes[64];
	for (u32 i = 0; i < sizeof bytes; i++)
		bytes[i] = (u8)(any(3) ? 0 : any(256));
	if (!any(8) && ftruncate(file, any(2000)))
		return;
	if (pwrite(file, bytes, any(sizeof bytes), any(400)) < 0)
		return;
}

/* An ELF file of one program header or more, whose fields may be any. */
static int mapped_file(void)
{
	static const u8 head[] = { 0x7f, 'E', 'L', 'F', 2, 1, 1 }, notes[] = { 4, 0, 0, 0, 20, 0, 0, 0, 3, 0, 0, 0, 'G', 'N', 'U', 0 };
	static const u32 segments[][14] = { { 1, 5, 0, 0, 4096, 0, 0, 0, 4096, 0 }, { 4, 4, 0x200, 0, 0x200, 0, 0, 0, 64, 0 } };
	uint16_t sizes[] = { 64, 56, 3 };
	u64 first = 64;
	int file = memfd_create("mapped", MFD_CLOEXEC);
	if (file < 0 || ftruncate(file, 4096) || pwrite(file, head, sizeof head, 0) < 0 || pwrite(file, &first, 8, 32) < 0 ||
	    pwrite(file, sizes, sizeof sizes, 52) < 0 || pwrite(file, segments, sizeof segments, 64) < 0 ||
	    pwrite(file, notes, sizeof notes, 0x200) < 0)
		fail("no file can be made");
	if (!any(2))
		change(file);
	return file;
}

int __real_open(const char *path, int flags, ...);
int __wrap_open(const char *path, int flags, ...)
{
	va_list more;
	va_start(more, flags);
	mode_t mode = flags & O_CREAT ? va_arg(more, mode_t) : 0;
	va_end(more);
	if (strncmp(path, "/proc/", 6) || !strncmp(path, "/proc/self", 10))
		return __real_open(path, flags, mode);
	if (!any(4))
		return -1;
	return any(8) ? mapped_file() : __real_open(any(2) ? "/dev/null" : "/", O_RDONLY | O_CLOEXEC);
}

/* The file that is there may be another one than that of the line. */
int __real_fstat(int file, struct stat *status);
int __wrap_fstat(int file, struct stat *status)
{
	int failed = __real_fstat(file, status);
	if (!failed && S_ISREG(status->st_mode))
		status->st_ino = any(8);
	return failed;
}

ssize_t __real_pread(int file, void *to, size_t bytes, off_t at);
ssize_t __wrap_pread(int file, void *to, size_t bytes, off_t at)
{
	ssize_t got = __real_pread(file, to, bytes, at);
	if (!any(4))
		change(file);
	return got;
}
