#define _GNU_SOURCE
#include "books.h"
#include "binderfs.h"
#include "file.h"
#include "kernel.h"
#include "side.h"
#include <errno.h>
#include <fcntl.h>
#include <stdio.h>
#include <string.h>
#include <sys/stat.h>
#include <unistd.h>

#define LONGEST_PATH 4200u
#define MOST_BYTES (64u << 20)		/* of a copy; what is longer is not kept */
#define PIECE 65536u

enum { BEGIN, END };
static const char *const whens[] = { [BEGIN] = "begin", [END] = "end" };
static const char *const names[] = { "state", "transactions", "stats" };	/* the first one is what matters */
#define WHENS (sizeof whens / sizeof *whens)
#define NAMES (sizeof names / sizeof *names)
_Static_assert(NAMES == MOST_BOOKS, "books.h says how many there are");

static struct file ends[NAMES] = { { .descriptor = -1 }, { .descriptor = -1 }, { .descriptor = -1 } };
static struct book_copy untold[NAMES];	/* of which the side list does not tell yet */
static size_t untold_count;

static void path_of(char *path, const char *out, const char *when, const char *name)
{
	snprintf(path, LONGEST_PATH, "%s.%s.%s", out, when, name);
}

const char *books_in_the_way(const char *out)
{
	static char path[LONGEST_PATH];
	struct stat status;
	for (size_t i = 0; i < WHENS * NAMES; i++) {
		path_of(path, out, whens[i / NAMES], names[i % NAMES]);
		if (!lstat(path, &status))
			return path;
	}
	return NULL;
}

/* The books of a binderfs are in its folder, if it is mounted with stats=global. They have the processes of all devices
 * of its driver, as those of debugfs have, where only the driver in C has some. Writes the path of one of them, and
 * returns whether it can be read. */
static int is_in_binderfs(char *path, enum driver driver, const char *name)
{
	char folder[BINDERFS_FOLDER_BYTES];
	enum driver its_driver;
	int is_found = 0;
	for (u32 number = 0; !is_found && binderfs_folder(number, folder); number++) {
		snprintf(path, LONGEST_PATH, "%s/binder_logs/%s", folder, name);
		is_found = binderfs_has(folder, &its_driver) && its_driver == driver && !access(path, R_OK);
	}
	return is_found;
}

int books_open(enum driver driver, const char *name)
{
	char path[LONGEST_PATH];
	if (!driver_is_recorded(driver))
		return -1;
	if (!is_in_binderfs(path, driver, name)) {
		if (driver != DRIVER_IN_C)
			return -1;
		snprintf(path, sizeof path, "/sys/kernel/debug/binder/%s", name);
	}
	return open(path, O_RDONLY | O_CLOEXEC);
}

/* Adds the whole of it to the file. The driver makes the text when its first bytes are read, and `after` is the last
 * number that was taken by then. Returns 0, or an errno. */
static int read_book(int book, struct file *to, u64 *after)
{
	char piece[PIECE];
	ssize_t count;
	int is_first = 1;
	while ((count = read(book, piece, sizeof piece)) > 0) {
		if (is_first)
			*after = kernel_last_number();
		is_first = 0;
		if (to->bytes + (u64)count > MOST_BYTES)
			return EFBIG;
		file_add(to, piece, (u64)count);
	}
	return count < 0 ? errno : 0;
}

/* Opens the book of each driver. Returns whether there is one. */
static int open_books(const char *name, int *books)
{
	int has_some = 0;
	for (enum driver driver = 0; driver < DRIVERS; driver++) {
		books[driver] = books_open(driver, name);
		has_some |= books[driver] >= 0;
	}
	return has_some;
}

/* The file of a copy: that of the end is there already, unless somebody else had its name. Returns 0, or an errno. */
static int create_copy(struct file *to, const char *out, size_t when, size_t name)
{
	char path[LONGEST_PATH];
	if (when == END && ends[name].descriptor >= 0) {
		*to = ends[name];
		ends[name].descriptor = -1;
		return 0;
	}
	path_of(path, out, whens[when], names[name]);
	return file_create(to, path);
}

/* Fills the file `to`, which is created unless that has failed, from these books. Of two drivers the text of the one in
 * C comes first. Returns 0, or an errno. */
static int fill_copy(struct file *to, int error, const int *books, struct book_copy *copy)
{
	for (enum driver driver = 0; driver < DRIVERS; driver++)
		if (books[driver] >= 0) {
			error = error ? error : read_book(books[driver], to, &copy->after);
			close(books[driver]);
		}
	if (!error)
		error = file_flush(to);
	if (error)
		file_remove(to);
	copy->bytes = to->bytes;
	int end_error = file_close(to);
	return error ? error : end_error;
}

static struct book_copy begin_copy(size_t when, size_t name)
{
	u64 from = kernel_last_number();
	return (struct book_copy){ .when = whens[when], .name = names[name], .time = now(), .from = from, .after = from };
}

/* Copies one of the books. */
static void copy_book(const char *out, size_t when, size_t name)
{
	struct file to;
	struct book_copy copy = begin_copy(when, name);
	int books[DRIVERS];
	if (!open_books(names[name], books))
		return;
	int error = fill_copy(&to, create_copy(&to, out, when, name), books, &copy);
	if (error)
		complain("%s: %s; the driver's books are not copied", to.path, strerror(error));
	else
		untold[untold_count++] = copy;
}

int books_copy_kept(const char *out, struct book_copy *copies, u32 *count)
{
	char path[LONGEST_PATH];
	int books[DRIVERS], error = 0;
	*count = 0;
	for (size_t name = 0; name < NAMES && !error; name++) {
		struct file to;
		struct book_copy copy = begin_copy(END, name);
		if (!open_books(names[name], books))
			continue;
		path_of(path, out, whens[END], names[name]);
		error = fill_copy(&to, file_create(&to, path), books, &copy);
		if (!error)
			copies[(*count)++] = copy;
		else if (error != ENOSPC && error != EDQUOT)
			error = 0;
	}
	return error;
}

void books_copy(const char *out, const char *when)
{
	for (size_t i = 0; i < NAMES; i++)
		copy_book(out, !strcmp(when, whens[END]) ? END : BEGIN, i);
	if (!strcmp(when, whens[END]))
		books_drop_names();
}

void books_keep_names(const char *out)
{
	struct file made;
	for (size_t i = 0; i < NAMES; i++)
		if (!create_copy(&made, out, END, i))
			ends[i] = made;
}

void books_drop_names(void)
{
	for (size_t i = 0; i < NAMES; i++)
		file_remove(&ends[i]);
}

void books_line(char *to, u64 room, const struct book_copy *copy)
{
	snprintf(to, room, "books %s %s from=%llu after=%llu bytes=%llu", copy->when, copy->name,
		 (unsigned long long)copy->from, (unsigned long long)copy->after, (unsigned long long)copy->bytes);
}

void books_tell(void)
{
	char line[LONGEST_BOOKS_LINE];
	for (size_t i = 0; i < untold_count; i++) {
		books_line(line, sizeof line, untold + i);
		side_line(untold[i].time, "%s", line);
	}
	untold_count = 0;
}

u32 books_begin_name(u32 number, char *name, u64 room)
{
	if (number < NAMES)
		snprintf(name, room, ".%s.%s", whens[BEGIN], names[number]);
	return number < NAMES;
}
