/* Scenarios whose processes are there when the recording ends: copies, refusals. The recorder is stopped when the file
 * `rested` is there. */
#include <fcntl.h>
#include <string.h>
#include <unistd.h>
#include "scenarios.h"

/* ---- copies: two clients get descriptors. Both close what came, and one of them keeps copies of two in three. */

enum { HAND_OUT = 70, DESCRIPTORS = 36 };

static void hand_out(struct exchange *exchange, transaction *delivered)
{
	static int file = -1;
	struct parcel parcel = {0};
	if (delivered->code != HAND_OUT) {
		serve(exchange, delivered);
		return;
	}
	if (file < 0) file = open("/proc/version", O_RDONLY);
	put_descriptor(&parcel, file);
	reply_to(exchange, delivered, &parcel);
	free_buffer(exchange, delivered);
}

static int descriptor_from(struct exchange *exchange, uint32_t handle)
{
	transaction reply;
	if (send_parcel(exchange, handle, HAND_OUT, TF_ACCEPT_FDS, NULL, &reply) != BR_REPLY) fail("copies: call");
	int came = handle_in(&reply);	/* a descriptor stands where a handle does */
	free_buffer(exchange, &reply);
	return came;
}

static void get_descriptors(struct exchange *exchange, uint32_t handle, bool keeps_copies)
{
	for (int i = 0; i < DESCRIPTORS; i++) {
		int came = descriptor_from(exchange, handle);
		if (keeps_copies && i % 3 && dup(came) < 0) fail("copies: dup");
		close(came);
		usleep(30000);
	}
}

static void copying_client(struct exchange *exchange, uint32_t handle) { get_descriptors(exchange, handle, true); }

static void closing_client(struct exchange *exchange, uint32_t handle) { get_descriptors(exchange, handle, false); }

/* ---- refusals: three calls to a handle that is not there, among others that are too large. Those go on when the
 * recording has ended, so the driver's log has some that the capture has not. */

enum { NOBODY = 77, RECORDED = 12, ROOM = 4096 };

static void refused_client(struct exchange *exchange, uint32_t handle)
{
	static uint8_t data[2 * ROOM];
	struct parcel parcel = {.elsewhere = data};
	memset(data, 7, sizeof data);
	for (int i = 0; !shared->ending; i++) {
		parcel.size = ROOM + 8 * (1 + i % 100);
		if (send_parcel(exchange, handle, ECHO, 0, &parcel, NULL) != BR_FAILED_REPLY) fail("refusals: a reply came");
		if (i < RECORDED && i % 4 == 2) call(exchange, NOBODY, ECHO);
		if (i == RECORDED) shared->resting++;
		usleep(20000);
	}
	rest();
}

const struct scenario alive_scenarios[] = {
	{"copies", .service_name = "library", .serve = hand_out, .other_name = "copying", .other = copying_client,
	 .client_name = "closing", .client = closing_client, .rests = 2, .stays = true},
	{"refusals", .service_name = "small", .service = small_service, .client = refused_client, .stays = true}, {0}};
