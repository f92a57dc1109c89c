/* The command line. */
#ifndef RECORDER_OPTIONS_H
#define RECORDER_OPTIONS_H
#include "common.h"

#define MOST_NAMED 256

struct options {
	const char *out;
	u64 size;			/* the most bytes of a file */
	u32 files;			/* how many of the newest files are kept; 0: all */
	u64 ring;			/* bytes */
	u32 processes[MOST_NAMED], process_count;
	const char *devices[MOST_NAMED];
	u32 device_count;
	const char *called[MOST_NAMED];	/* names and users of --only */
	u32 called_count;
	int redact, no_attachments, stacks, live;
	u32 keep_most;			/* how many sets are kept at one time */
	int keep;			/* only asks a recorder that runs already */
	int has_out;
	int check;			/* only looks whether a recording can be made */
	char **program;			/* NULL if there is none */
};

/* Reads the command line, or ends: with status 0 after --help, or with status 64 and a line that names a wrong word. */
void options_read(struct options *options, int count, char **words);
#endif
