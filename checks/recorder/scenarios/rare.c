/* The scenario rare: a client makes 500 calls a second for `scale` seconds, and in the middle of them a call of another
 * client is answered only after 12 seconds. */
#include <time.h>
#include <unistd.h>
#include "scenarios.h"

enum { LATE = 100, LATE_SECONDS = 12, CALLS_OF_SECOND = 500 };

static void serve_late(struct exchange *exchange, transaction *delivered)
{
	if (delivered->code == LATE) sleep(LATE_SECONDS);
	serve(exchange, delivered);
}

static void steady_client(struct exchange *exchange, uint32_t handle)
{
	struct timespec next;
	clock_gettime(CLOCK_MONOTONIC, &next);
	for (int i = 0; i < scale * CALLS_OF_SECOND; i++) {
		call(exchange, handle, ECHO);
		next.tv_nsec += 1000000000 / CALLS_OF_SECOND;
		if (next.tv_nsec >= 1000000000) {
			next.tv_nsec -= 1000000000;
			next.tv_sec++;
		}
		clock_nanosleep(CLOCK_MONOTONIC, TIMER_ABSTIME, &next, NULL);
	}
}

static void hanging_client(struct exchange *exchange, uint32_t handle)
{
	for (int left = scale / 2; left > 0; left--) sleep(1);
	call(exchange, handle, LATE);
}

static void rare(void)
{
	longest_life = 0;
	manager_and_service("service", serve_played);
	start_client("steady", steady_client);
	start_client("camera_app", hanging_client);
	wait_long(&shared->resting, 2);
}

const struct scenario rare_scenarios[] = {
	{"rare", .run = rare, .serve = serve_late, .has_pool = true}, {0}};
