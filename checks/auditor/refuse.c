/* Refuses growths of a program's memory, for checks/refuse. Preloaded, it counts the calls of malloc, calloc, realloc
   and their aligned forms. It refuses call number REFUSE_AT, or, with REFUSE_FROM, that call and all later ones. Each
   refusal adds a line to the file REFUSE_LOG, and so does each thread that is started. A line is written at once, since
   a program with threads may end without running the end of this library. */
#define _GNU_SOURCE
#include <dlfcn.h>
#include <errno.h>
#include <fcntl.h>
#include <pthread.h>
#include <stdatomic.h>
#include <stdlib.h>
#include <string.h>
#include <unistd.h>

extern void *__libc_malloc(size_t);
extern void *__libc_calloc(size_t, size_t);
extern void *__libc_realloc(void *, size_t);
extern void *__libc_memalign(size_t, size_t);

static atomic_long calls;
static long at = -1, from = -1;
static int log_file = -1;
static int (*create)(pthread_t *, const pthread_attr_t *, void *(*)(void *), void *);

__attribute__((constructor)) static void begin(void)
{
	*(void **)&create = dlsym(RTLD_NEXT, "pthread_create");
	const char *word = getenv("REFUSE_LOG");
	if (word)
		log_file = open(word, O_WRONLY | O_APPEND | O_CREAT | O_CLOEXEC, 0600);
	atomic_store(&calls, 0);
	word = getenv("REFUSE_AT");
	at = word ? atol(word) : -1;
	word = getenv("REFUSE_FROM");
	from = word ? atol(word) : -1;
}

static void tell(const char *line, int length)
{
	if (log_file >= 0 && write(log_file, line, length) != length)
		_exit(99);
}

static int refused(const char *call, size_t size)
{
	long number = atomic_fetch_add(&calls, 1) + 1;
	if (number != at && (from < 0 || number < from))
		return 0;
	char line[64];
	int length = 0;
	while (call[length])
		line[length] = call[length], length++;
	line[length++] = ' ';
	char digits[24];
	int count = 0;
	do
		digits[count++] = '0' + size % 10, size /= 10;
	while (size);
	while (count)
		line[length++] = digits[--count];
	line[length++] = '\n';
	tell(line, length);
	errno = ENOMEM;
	return 1;
}

void *malloc(size_t size) { return refused("malloc", size) ? NULL : __libc_malloc(size); }

void *calloc(size_t count, size_t size)
{
	return refused("calloc", count * size) ? NULL : __libc_calloc(count, size);
}

void *realloc(void *old, size_t size) { return refused("realloc", size) ? NULL : __libc_realloc(old, size); }

void *aligned_alloc(size_t align, size_t size)
{
	return refused("aligned_alloc", size) ? NULL : __libc_memalign(align, size);
}

int posix_memalign(void **out, size_t align, size_t size)
{
	if (refused("posix_memalign", size))
		return ENOMEM;
	*out = __libc_memalign(align, size);
	return *out ? 0 : ENOMEM;
}

int pthread_create(pthread_t *thread, const pthread_attr_t *attributes, void *(*body)(void *), void *argument)
{
	int failed = create(thread, attributes, body, argument);
	if (!failed)
		tell("thread\n", 7);
	return failed;
}
