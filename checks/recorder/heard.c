/* heard OUT BYTES CALLS [followed|live]: gives the recorder's loader the messages of so many calls, each with BYTES of
 * data, which begins with the token of an interface, and 4 bytes of answer, as cost/calls.c makes them. With `followed`
 * it follows which calls are open, as triggers have it do, and with `live` it counts what --live shows. See heard. */
#include "kit.h"
#include "live.h"
#include "made_frame.h"
#include "open_calls.h"
#include "parts.h"
#include "redact.h"
#include "window.h"
#include <stdlib.h>
#include <string.h>

enum {
	CLIENT = 1, SERVICE, PROCESS = 100, MOST_DATA = 1 << 16, ANSWER = 4
};
#define CALLS_AT_ONCE 16		/* of which the messages are in the ring together */
#define RING_BYTES (64u << 20)		/* as by default */

static u64 last;			/* the number that was taken last */
static struct made_ring ring;
static u8 token[MOST_DATA];		/* data that begins with one */

static void begin_token(void)
{
	static const char interface[] = "android.hardware.camera.ICamera";
	u32 head[] = { 0, 0, 0x53595354, sizeof interface - 1 };
	memcpy(token, head, sizeof head);
	for (u32 i = 0; i < sizeof interface - 1; i++)
		token[sizeof head + 2 * i] = (u8)interface[i];
}

static void put(const void *message, u64 bytes)
{
	made_ring_put(&ring, message, bytes, NULL, 0);
}

static void carry(u32 word, u64 data)
{
	made_send(word, (struct binder_transaction_data){ .data_size = data, .sender_pid = PROCESS });
}

static void free_buffer(void)
{
	made_record(BC_FREE_BUFFER, NULL, sizeof(u64));
}

static void hear(u32 direction, u32 thread, u32 data)
{
	made_frame(put, head_of(MESSAGE_CHUNK, direction, ++last, 1, thread), token, data);
}

static void call(u32 bytes)
{
	free_buffer();
	carry(BC_TRANSACTION, bytes);
	hear(DIRECTION_WRITE, CLIENT, bytes);
	made_code(BR_NOOP);
	carry(BR_TRANSACTION, bytes);
	hear(DIRECTION_READ, SERVICE, bytes);
	carry(BC_REPLY, ANSWER);
	hear(DIRECTION_WRITE, SERVICE, ANSWER);
	made_code(BR_NOOP);
	made_code(BR_TRANSACTION_COMPLETE);
	hear(DIRECTION_READ, SERVICE, 0);
	made_code(BR_NOOP);
	made_code(BR_TRANSACTION_COMPLETE);
	carry(BR_REPLY, ANSWER);
	hear(DIRECTION_READ, CLIENT, ANSWER);
	free_buffer();
	hear(DIRECTION_WRITE, SERVICE, 0);
}

static void hear_calls(u32 bytes, long calls)
{
	for (long left = calls; left > 0; left -= CALLS_AT_ONCE) {
		for (int i = 0; i < CALLS_AT_ONCE; i++)
			call(bytes);
		made_ring_take(&ring);		/* what is counted */
	}
}

int main(int count, char **words)
{
	if (count < 4 || strtoul(words[2], NULL, 10) > MOST_DATA)
		fail("heard OUT BYTES CALLS [followed|live]");
	begin_token();
	if (count > 4 && !strcmp(words[4], "followed"))
		open_calls_begin();
	live_begin(&(struct options){ .live = count > 4 && !strcmp(words[4], "live") });
	u32 bytes = (u32)strtoul(words[2], NULL, 10);
	made_ring_begin(&ring, RING_BYTES);
	redact_begin(0);
	if (parts_begin(words[1], 1u << 28, 0))
		fail("%s can't be written", words[1]);
	made_opening(1, PROCESS, "heard");
	made_thread(CLIENT, 101, PROCESS, "client");
	made_thread(SERVICE, 102, PROCESS, "service");
	hear_calls(bytes, strtol(words[3], NULL, 10));
	return window_lost() || parts_end();
}
