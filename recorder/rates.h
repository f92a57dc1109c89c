/* How often who calls whom, by what: counted for a look, in the frames that are written. */
#ifndef RECORDER_RATES_H
#define RECORDER_RATES_H
#include "common.h"

/* Calls of one code of one interface, from one process to another. */
struct rate {
	u32 device, to;			/* `to` and `from` are numbers of the capture */
	u64 from;			/* and 1 more; or 0: not known */
	u32 from_pid;			/* as the delivery tells; 0 if it does not */
	u32 code, interface, is_oneway;
	u64 now, all;			/* since the last look, and before it */
};

/* One was delivered: `rate` says which, and has no counts. */
void rates_count(const struct rate *rate);
/* Those that came since the last look, the most frequent one first; and how many they are. */
const struct rate *const *rates_sorted(u32 *count);
/* The next look begins. */
void rates_pass(void);
#endif
