/* Reads which files processes map as code. A thread of its own does that: a file system or a process that lets it wait
 * does not hold up the loader. */
#ifndef RECORDER_MAPS_H
#define RECORDER_MAPS_H
#include "common.h"
#include "code_file.h"
#include "worker.h"

/* A file that is mapped. It is kept until the end, also when it has changed since. */
struct mapped_file {
	const struct mapped_file *before;	/* the one that was read before it */
	u64 changed;			/* when its bytes changed last */
	struct code_file code;
	char path[];
};

/* A range of addresses of code. */
struct map {
	u64 start, end, offset;		/* offset: in the file */
	const struct mapped_file *file;	/* NULL if there is none */
	u32 told, unused;
};

/* What was read of a process. */
struct maps_answer {
	struct job job;
	u32 memory, process;
	u64 start;
	const char *why;		/* why nothing was read; NULL if something was */
	struct map *maps;		/* rising */
	u32 count;
};

/* Asks for the maps of a process that began at this time. `memory` says whose the answer is. Returns 0 if too many
 * wait. */
int maps_ask(u32 memory, u32 process, u64 start);
/* The next answer, or NULL if there is none yet. */
struct maps_answer *maps_take(void);
void maps_free(struct maps_answer *answer);
/* How many answers are still to come. */
u32 maps_awaited(void);
#endif
