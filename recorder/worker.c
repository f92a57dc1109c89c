#include "worker.h"
#include <signal.h>

#define MOST_JOBS 1024u

static void put(struct jobs *jobs, struct job *job)
{
	job->next = NULL;
	if (jobs->first)
		jobs->last->next = job;
	else
		jobs->first = job;
	jobs->last = job;
}

static struct job *take(struct jobs *jobs)
{
	struct job *job = jobs->first;
	if (job)
		jobs->first = job->next;
	return job;
}

static void *work_for_ever(void *its_worker)
{
	struct worker *worker = its_worker;
	for (;;) {
		pthread_mutex_lock(&worker->lock);
		while (!worker->asked.first)
			pthread_cond_wait(&worker->is_asked, &worker->lock);
		struct job *job = take(&worker->asked);
		pthread_mutex_unlock(&worker->lock);
		job->work(job);
		pthread_mutex_lock(&worker->lock);
		put(&worker->done, job);
		pthread_mutex_unlock(&worker->lock);
	}
	return NULL;
}

/* Signals go to the loader's thread, which they wake. */
static int start_working(struct worker *worker)
{
	pthread_t thread;
	sigset_t all, before;
	sigfillset(&all);
	pthread_sigmask(SIG_SETMASK, &all, &before);
	int error = pthread_create(&thread, NULL, work_for_ever, worker);
	pthread_sigmask(SIG_SETMASK, &before, NULL);
	return !error;
}

int worker_ask(struct worker *worker, struct job *job)
{
	if (!worker->is_running && !(worker->is_running = start_working(worker)))
		return 0;
	if (worker->awaited == MOST_JOBS)
		return 0;
	pthread_mutex_lock(&worker->lock);
	put(&worker->asked, job);
	pthread_cond_signal(&worker->is_asked);
	pthread_mutex_unlock(&worker->lock);
	worker->awaited++;
	return 1;
}

struct job *worker_take(struct worker *worker)
{
	if (!worker->awaited)
		return NULL;
	pthread_mutex_lock(&worker->lock);
	struct job *job = take(&worker->done);
	pthread_mutex_unlock(&worker->lock);
	if (job)
		worker->awaited--;
	return job;
}
