/* The lines of --live. A thread beside the loader's own writes them: who reads them may let it wait. If the lines of a
 * second are not read by then, the next ones are left out. */
#ifndef RECORDER_LIVE_LINES_H
#define RECORDER_LIVE_LINES_H
#include "options.h"

/* What came since the last lines. */
struct live_counts {
	u64 time;			/* of the last lines */
	u64 calls, oneways, answers, refused;	/* calls and oneways that somebody got */
};

void live_lines_begin(const struct options *options);
void live_lines(const struct live_counts *counts, u64 time);
#endif
