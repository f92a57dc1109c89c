/* Groups of threads, of which a guest has none. */
#pragma once
#include <sys/types.h>

typedef enum { SP_DEFAULT = -1, SP_BACKGROUND = 0, SP_FOREGROUND = 1, SP_SYSTEM = 2 } SchedPolicy;

static inline int set_sched_policy(int thread, SchedPolicy policy)
{
	(void)thread;
	(void)policy;
	return 0;
}

static inline int get_sched_policy(int thread, SchedPolicy *policy)
{
	(void)thread;
	*policy = SP_FOREGROUND;
	return 0;
}
