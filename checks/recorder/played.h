/* What is to come of frames that were played, and whether it did. */
#ifndef PLAYED_H
#define PLAYED_H
#include "common.h"

/* A sum of the bytes that the frame has in a capture, without its head, and how many there are. */
struct due {
	u64 sum, bytes;
};

struct due played_due(const void *commands, u64 bytes);
void played_add(struct due *due, const void *bytes, u64 count);
/* The frame of this number is due; or whatever may come of it. */
void played_expect(u64 number, struct due due);
void played_taint(u64 number);
/* Reads the files back. Each number up to the last one must be in one line of the side list; each frame that is due must
 * be in the capture with its bytes, or be lost, which is a failure too if all must be there. Of a flight recorder only the
 * files that are kept are read. */
void played_judge(const char *out, u32 files_made, u32 files_kept, u64 last, int all_are_there);
#endif
