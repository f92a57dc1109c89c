/* A driver that is made up: see made_driver.h. */
#define _GNU_SOURCE
#include "made_driver.h"
#include "drivers.h"
#include "kernel.h"
#include "needs.h"
#include <errno.h>
#include <fcntl.h>
#include <stdarg.h>
#include <stdio.h>
#include <string.h>
#include <sys/mman.h>
#include <unistd.h>

#define MAY_BE_OTHERS __attribute__((weak))

u64 made_last;
int made_is_stopped;
static u64 end_number;

/* ---- its books: the text of a book is its name */

int __real_open(const char *path, int flags, ...);

static int open_book(const char *name)
{
	int book = memfd_create(name, 0);
	if (book < 0 || dprintf(book, "%s", name) < 0 || lseek(book, 0, SEEK_SET))
		fail("the book %s can't be made", name);
	return book;
}

MAY_BE_OTHERS int made_log(void)
{
	errno = ENOENT;
	return -1;
}

int __wrap_open(const char *path, int flags, ...)
{
	const char *name = strrchr(path, '/');
	va_list more;
	va_start(more, flags);
	mode_t mode = flags & O_CREAT ? va_arg(more, mode_t) : 0;
	va_end(more);
	if (name && !strcmp(name, "/failed_transaction_log"))
		return made_log();
	if (name && (!strcmp(name, "/state") || !strcmp(name, "/transactions") || !strcmp(name, "/stats")))
		return open_book(name + 1);
	return __real_open(path, flags, mode);
}

/* ---- what the recorder looks for in a system */

void need_space(const char *out, u64 most) { (void)out, (void)most; }
void need_capabilities(void) {}
MAY_BE_OTHERS void need_kernel(void) {}
void need_no_lockdown(void) {}
int need_driver(void) { return 1; }
int need_tracefs(void) { return 1; }
void need_tracepoints(void) {}
int driver_is_recorded(enum driver driver) { return driver == DRIVER_IN_C; }
const char *driver_language(enum driver driver) { return driver == DRIVER_IN_C ? "C" : "another language"; }

/* ---- its program in the kernel: nothing is in the ring, and ring_drain() hands over what comes */

void kernel_load(const struct options *options, struct ring *ring)
{
	static u64 place;
	*ring = (struct ring){ .taken = &place, .put = &place, .size = options->ring };
}

void kernel_start(void) {}
void kernel_detach(void) {}
void kernel_unload(void) {}
void kernel_make_room(void) {}
u64 kernel_last_number(void) { return made_is_stopped ? end_number : made_last; }
u64 kernel_bound(void) { return kernel_last_number(); }
u64 kernel_calls_32_bit(void) { return 0; }
u64 kernel_stacks_without_room(void) { return 0; }
u64 kernel_stacks_failed(void) { return 0; }
u64 kernel_stacks_empty(void) { return 0; }
MAY_BE_OTHERS u64 kernel_runs_missed(void) { return 0; }
MAY_BE_OTHERS u64 kernel_calls_without_number(void) { return 0; }
MAY_BE_OTHERS u32 kernel_holders(struct share *holders, u32 most) { return (void)holders, (void)most, 0; }
MAY_BE_OTHERS void made_stop(void) {}

u64 kernel_stop(void)
{
	end_number = made_last;
	made_is_stopped = 1;
	made_stop();
	return end_number;
}
