/* A thread beside the loader's own, which does what may have to wait: for a process, or for a file system. So neither
 * holds up the loader. */
#ifndef RECORDER_WORKER_H
#define RECORDER_WORKER_H
#include "common.h"
#include <pthread.h>

/* What is to be done: it is the first member of what the work needs, and of what comes of it. */
struct job {
	struct job *next;
	void (*work)(struct job *job);
};

struct jobs {
	struct job *first, *last;
};

struct worker {
	pthread_mutex_t lock;
	pthread_cond_t is_asked;
	struct jobs asked, done;
	int is_running;			/* this and the next one are of the loader's thread alone */
	u32 awaited;			/* how many jobs were asked for and not taken back */
};

#define WORKER { .lock = PTHREAD_MUTEX_INITIALIZER, .is_asked = PTHREAD_COND_INITIALIZER }

/* Hands over a job. Returns 0 if too many wait, or there is no thread; then the job was not taken. */
int worker_ask(struct worker *worker, struct job *job);
/* The next job that is done, or NULL if there is none yet. */
struct job *worker_take(struct worker *worker);
#endif
