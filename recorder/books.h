/* Copies of the driver's books: what it holds of each process when the recording begins, and when it ends. They are
 * beside the side list, in OUT.begin.state and so on; docs/RECORD.md names them. */
#ifndef RECORDER_BOOKS_H
#define RECORDER_BOOKS_H
#include "common.h"
#include "drivers.h"

#define MOST_BOOKS 3u
#define LONGEST_BOOKS_LINE 192u

/* A copy that was made, in OUT.WHEN.NAME. */
struct book_copy {
	const char *when, *name;
	u64 time, from, after, bytes;
};

/* Opens one of a driver's books. Returns a descriptor, or one below 0. */
int books_open(enum driver driver, const char *name);
/* Returns the path of a copy that exists already, or NULL. */
const char *books_in_the_way(const char *out);
/* Copies the books. `when` is "begin" or "end". What can't be read is left out. */
void books_copy(const char *out, const char *when);
/* Creates the copies of the end, empty: nobody else can take their names until then. */
void books_keep_names(const char *out);
/* Removes them again, if they were not made. */
void books_drop_names(void);
/* Says in the side list which copies were made since the last call. At the end it is called when all frames are
 * written: with --files, one more file may be begun before that, and an older side list is removed. */
void books_tell(void);
/* Copies the books as those of the end, OUT.end.state and so on, of files that are kept while the recording goes on; any
 * thread may call it. What can't be read is left out. Returns 0 with how many there are, or an errno. */
int books_copy_kept(const char *out, struct book_copy *copies, u32 *count);
/* The line of the side list about a copy, without its time. */
void books_line(char *to, u64 room, const struct book_copy *copy);
/* What OUT is followed by in the name of a copy of the beginning, for each number from 0 on. Returns 0 after the last. */
u32 books_begin_name(u32 number, char *name, u64 room);
#endif
