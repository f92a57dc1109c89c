/* Keeps the files of a flight recorder as they are now, while the recording goes on. docs/RECORD.md says when and how,
 * and docs/SIDE-LIST.md has the line that says why. */
#ifndef RECORDER_KEEP_H
#define RECORDER_KEEP_H
#include "common.h"
#include "options.h"

/* Why a set is kept, as the line `kept` has it. */
struct why_kept {
	const char *word;
	u64 time, after;		/* when it was seen, and the last number that was taken then */
	int has_record;
	u64 frame;			/* of the record, */
	u32 record;			/* and where the record begins in its commands */
	u32 pid;			/* 0: none */
	u64 since, limit;		/* 0: none */
	char name[1100];		/* as it is in the side list */
	char words[800];		/* for who sits before the screen: `because` these */
};

/* From now on sets can be kept; `view` is the command that shows one. */
void keep_begin(const struct options *options, const char *view);
/* Asks for a set. Returns 0 if one is being kept; then it is not asked for. */
int keep_ask(const struct why_kept *why);
/* Does what is due. It is called each time that the ring was looked at. */
void keep_look(void);
/* The recording has ended, and its files are closed. A set that ends before it is kept, and waited for. */
void keep_end(void);
/* When the last set was begun; 0 if there is none. */
u64 keep_last(void);
/* What became of the last set that was asked for: its folder, or why there is none; both empty while it is not known. */
struct kept {
	u32 asked;			/* how many sets were asked for so far */
	char folder[4200], failure[1100];
};
const struct kept *keep_result(void);
#endif
