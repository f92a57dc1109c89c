/* A scenario about freeze notifications: a service is frozen and thawed, and others asked to be told of it. Before
 * Linux 6.12 the driver refuses their requests, and nothing more is done. */
#include <string.h>
#include "scenarios.h"

enum { ACKNOWLEDGES, ACKNOWLEDGES_TOO, KEEPS, LETS_GO, CLEARS, CLEARS_UNACKNOWLEDGED, WATCHERS };
static const char *const names[WATCHERS] = {"acknowledges", "too", "keeps", "lets-go", "clears", "unacknowledged"};
static int which;

#define CHANGES 4	/* how often the service is frozen or thawed */

static bool request(const struct exchange *exchange, const struct binder_handle_cookie *asked)
{
	uint32_t code = REQUEST_FREEZE_NOTIFICATION;
	uint8_t bytes[sizeof code + sizeof *asked];
	memcpy(bytes, &code, sizeof code);
	memcpy(bytes + sizeof code, asked, sizeof *asked);
	return hand_over(exchange->opening, bytes, sizeof bytes) == sizeof bytes;
}

static void watching(struct exchange *exchange, uint32_t handle)
{
	struct opening *opening = exchange->opening;
	struct binder_handle_cookie asked = {handle, 0xf000 + which};
	opening->keeps_freezes = which == KEEPS || which == LETS_GO || which == CLEARS_UNACKNOWLEDGED;
	enter_loop(exchange);
	if (request(exchange, &asked)) {
		while (!opening->freezes) receive(exchange);	/* the driver tells at once what is */
		if (which == CLEARS || which == CLEARS_UNACKNOWLEDGED)
			command(exchange, CLEAR_FREEZE_NOTIFICATION, &asked);
		if (which == LETS_GO) number_command(exchange, BC_RELEASE, asked.handle);
		turn(exchange, false);
		while (which == CLEARS && !opening->freeze_clears) receive(exchange);
		shared->ready++;
		while (which <= ACKNOWLEDGES_TOO && opening->freezes <= CHANGES) receive(exchange);
		turn(exchange, false);
		wait_until(&shared->stage, 1);
		if (which != LETS_GO) calls(exchange, asked.handle, ECHO, 3);
	} else
		shared->ready++;
}

static void freezer(void)
{
	struct exchange *exchange = opened("binder");
	for (int change = 1; change <= CHANGES; change++) {
		int told = shared->freezes;
		freeze_service(exchange, change % 2);
		wait_until(&shared->freezes, told + ACKNOWLEDGES_TOO + 1);
	}
	shared->stage = 1;
	ready_to_rest(exchange);
}

static void watchers(void)
{
	manager_and_service("service", service);
	for (which = 0; which < WATCHERS; which++) start_client(names[which], watching);
	wait_until(&shared->ready, 2 + WATCHERS);
	if (shared->freezes) start("freezer", freezer);
	wait_until(&shared->resting, WATCHERS + (shared->freezes > 0));
}

const struct scenario frozen_scenarios[] = {{"watchers", .run = watchers}, {0}};
