/* The capture, in files of a limited size: OUT-1.cap, OUT-2.cap and so on, with the side list OUT.side. Their forms are
 * in docs/ENVELOPE.md and docs/SIDE-LIST.md. With --files only the newest ones are kept, and each has a side list. */
#ifndef RECORDER_PARTS_H
#define RECORDER_PARTS_H
#include "common.h"

#define MOST_TOGETHER 1073741824u	/* the most bytes that the auditor takes as one capture, */
#define MOST_FILES_TOGETHER 256u	/* and the most files */
#define FILE_HEAD 16u
#define PARTS_LATER (-1)		/* the next file is not begun yet */

/* Returns the path of a file that exists already, or NULL. */
const char *parts_in_the_way(const char *out);
/* Creates the side list and OUT-1.cap. `most_files` is 0 if all files are kept. Returns 0, or an errno. */
int parts_begin(const char *out, u64 most_bytes, u32 most_files);
/* Removes both, if they were created. */
void parts_remove(void);
/* Whether a frame of this many bytes fits into a file of the largest size. */
int parts_have_room(u64 bytes);
/* Makes room for a frame of this many bytes, in the next file if this one is full. Returns 0; or the errno of the first
 * failure; then the frame is not written. Or PARTS_LATER: the side list of the next file has many first lines, and the
 * ring must not get full meanwhile. Then the call is due once more, for the same frame. */
int parts_next_frame(u64 number, u64 time, u64 bytes);
/* With --files: ends the file, which has all frames up to this number, and begins the next one. Returns 0, or an errno, or
 * PARTS_LATER as above. */
int parts_cut(u64 number, u64 time);
/* Writes some more of the side list's first lines, if no frame comes that would. Returns 1 if they are all there. */
int parts_go_on(void);
/* From now on no file is removed, */
void parts_hold(void);
/* or those are that there are too many of, and later ones again. */
void parts_let_go(void);
/* The numbers of the oldest file that is kept and of the newest one, and how many bytes one between has that is ended; 0 if
 * it is none of ours. */
u32 parts_first(void);
u32 parts_newest(void);
u64 parts_size(u32 number);
void parts_add(const void *bytes, u64 count);
/* Adds bytes that stay where they are until the next flush. */
void parts_lend(const void *bytes, u64 count);
/* Hands to the system what was added, the side list first, so that each frame of the capture has its lines there.
 * Returns 0, or the errno of the first failure; after a failure nothing more is written. */
int parts_flush(void);
int parts_end(void);
/* The path of the file that failed, or of the last capture. */
const char *parts_path(void);
/* How many frames are in the files for certain, and the number of the last one. */
u64 parts_frames(void);
u64 parts_last(void);
/* How many bytes were written, also into files that are not kept. */
u64 parts_written(void);
/* How many bytes are in the files that are kept, how many files were made, and how many are kept. */
u64 parts_bytes(void);
u32 parts_count(void);
u32 parts_kept(void);
/* Writes into `text` the commands that audit the files, each with as many files as the auditor takes together. */
void parts_commands(const char *audit, char *text, u64 room);
#endif
