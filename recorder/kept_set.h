/* A kept set: files of a flight recorder as they were at one moment, with their side lists and copies of the driver's
 * books. It is put together in the folder OUT.keeping, and has its last name, OUT.kept- and the time, only when all of it
 * is on the disk. All this may take long, and any thread may do it. */
#ifndef RECORDER_KEPT_SET_H
#define RECORDER_KEPT_SET_H
#include "books.h"
#include "common.h"

#define KEPT_NAME_BYTES 48u		/* of .kept- and the time, with a number behind that and a NUL */
#define WORDS_BYTES 1024u

struct kept_set {
	const char *out;		/* OUT */
	u32 most;			/* so many sets there may be */
	u64 needed;			/* so much room the files take again that are recorded next */
	char name[KEPT_NAME_BYTES];	/* what OUT is followed by in its last name */
	u32 *numbers, count;		/* of its files, the newest one last */
	char last_lines[4096];		/* of the side list of that */
	struct book_copy copies[MOST_BOOKS];
	u32 copy_count;
	u32 together;			/* the place in `numbers` from which on the viewer takes them as one */
	u64 bytes;			/* of all its files */
	char failure[WORDS_BYTES];	/* what failed, and why */
};

/* The folder in which a set is put together, if it is there already; or NULL. */
const char *kept_set_in_the_way(const char *out);
/* Each of these returns whether it was done; else `failure` says why, and nothing of the set is left. They come one after
 * the other: */
/* Makes the folder, if there is room for one more set, and copies the books. */
int kept_set_begin(struct kept_set *set);
/* Puts the files there: by a second name, which takes no room, or else as copies. Then those of the recording may be
 * removed. */
int kept_set_gather(struct kept_set *set);
/* Waits until all is on the disk, and gives the set its name. */
int kept_set_end(struct kept_set *set);
/* Removes what is there of a set that is not to be kept. */
void kept_set_drop(struct kept_set *set);
/* The path of a file of the set, by its last name; NUMBER 0: of the folder. */
void kept_set_path(const struct kept_set *set, char *to, u64 room);
#endif
