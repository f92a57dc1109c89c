/* A file that is written from start to end, and that never replaces another file. */
#ifndef RECORDER_FILE_H
#define RECORDER_FILE_H
#include "common.h"

/* Bytes of somebody else, between those that wait in the file's own memory. */
struct lent_bytes {
	u64 before;			/* so many of those come first */
	const void *bytes;
	u64 count;
};

struct file {
	char path[4096];
	int descriptor, error;		/* error: the errno of the first write that failed */
	u8 *waiting;			/* bytes that are not handed to the system yet */
	u64 waiting_bytes, room, bytes;	/* bytes: how many were added in all */
	struct lent_bytes *lent;	/* and those that were lent */
	u32 lent_count, lent_room;
	u64 lent_bytes;
	u64 whole;			/* how many bytes are handed over for certain */
};

/* Creates a file that must not exist, for its owner only. Returns 0, or an errno. */
int file_create(struct file *file, const char *path);
/* Adds bytes. They are handed to the system later. */
void file_add(struct file *file, const void *bytes, u64 count);
/* Adds bytes that stay where they are until the next flush. */
void file_lend(struct file *file, const void *bytes, u64 count);
/* Hands all added bytes to the system. Returns 0, or an errno. If only some can be written, they are cut off again. */
int file_flush(struct file *file);
/* Drops what was not handed over. Nothing more is written. */
void file_drop(struct file *file, int error);
/* Flushes and closes it. */
int file_close(struct file *file);
/* Closes and removes it. */
void file_remove(struct file *file);
#endif
