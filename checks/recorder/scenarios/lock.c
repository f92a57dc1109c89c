/* The scenario lock: a service holds a lock over a call to another process, and what else it serves waits for it. */
#include <unistd.h>
#include "scenarios.h"

enum { REFRESH = 80, STATUS, QUERY, ROUNDS = 3, USERS = 3 };

static pthread_mutex_t spool_lock = PTHREAD_MUTEX_INITIALIZER;
static uint32_t plugin;		/* a handle of the service */

static void serve_with_lock(struct exchange *exchange, transaction *delivered)
{
	if (delivered->code == TAKE) plugin = handle_in(delivered);
	if (delivered->code == REFRESH || delivered->code == STATUS) {
		pthread_mutex_lock(&spool_lock);
		if (delivered->code == REFRESH) calls(exchange, plugin, QUERY, 1);
		pthread_mutex_unlock(&spool_lock);
	}
	serve(exchange, delivered);
}

static void query_slowly(struct exchange *exchange, transaction *delivered)
{
	if (delivered->code == QUERY) usleep(1200000);
	serve(exchange, delivered);
}

static void slow_plugin(struct exchange *exchange, uint32_t handle)
{
	exchange->opening->serve = query_slowly;
	give_object(exchange, handle, TAKE, 0);
	ready_to_serve(exchange);
}

static void refreshing_client(struct exchange *exchange, uint32_t handle)
{
	for (int i = 0; i < ROUNDS; i++) {
		usleep(700000);
		calls(exchange, handle, REFRESH, 1);
	}
	shared->stage++;
}

static void asking_client(struct exchange *exchange, uint32_t handle)
{
	while (!shared->stage) {
		calls(exchange, handle, STATUS, 1);
		usleep(60000);
	}
}

static void lock(void)
{
	manager_and_service("spooler", serve_played);
	start_ready_client("plugin", slow_plugin);
	for (int i = 0; i < USERS; i++) start_client("user", asking_client);
	start_client("refreshing", refreshing_client);
	wait_until(&shared->resting, USERS + 1);
}

const struct scenario lock_scenarios[] = {{"lock", .run = lock, .serve = serve_with_lock, .has_pool = true}, {0}};
