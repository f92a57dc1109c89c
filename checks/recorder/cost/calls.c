/* calls BYTES COUNT [RATE]: a client makes COUNT calls to a service, each with BYTES of data, and gets 4 bytes back.
 * Both hand over to the driver what libbinder does for a call: the client BC_TRANSACTION, and BC_FREE_BUFFER of the
 * answer before; the service BC_REPLY, and then BC_FREE_BUFFER with the next read. Both are DEPTH functions deep. With
 * RATE it makes so many calls a second. It writes how long the calls took, in nanoseconds. */
#include <stdio.h>
#include <stdlib.h>
#include <sys/mman.h>
#include <time.h>
#include "mark.h"
#include "service.h"

enum { DEPTH = 24, FIRST = 50, MOST = 1 << 16 };

static size_t bytes;
static long count, rate;

/* With an instruction after the call, so that the function keeps its frame. */
static __attribute__((noinline)) void at_depth(int depth, void (*work)(void))
{
	if (depth) at_depth(depth - 1, work);
	else work();
	__asm__ volatile("");
}

static long long now(void)
{
	struct timespec time;
	clock_gettime(CLOCK_MONOTONIC, &time);
	return time.tv_sec * 1000000000LL + time.tv_nsec;
}

/* ---- the service, which is the manager too: its handle is 0 */

static void answer(struct exchange *exchange, transaction *delivered)
{
	static const struct parcel status = {.size = sizeof(uint32_t)};
	reply_to(exchange, delivered, &status);
	free_buffer(exchange, delivered);
}

static void serve_calls(void) { manage_with("binder", 0, answer); }

static void be_service(void) { at_depth(DEPTH, serve_calls); }

/* ---- the client */

static void make_calls(struct exchange *exchange, long number)
{
	static const uint8_t data[MOST];
	struct parcel parcel = {.size = bytes, .elsewhere = data};
	long long began = now();
	for (long i = 0; i < number; i++) {
		long long wait = rate ? began + i * 1000000000LL / rate - now() : 0;
		if (wait > 0) nanosleep(&(struct timespec){.tv_nsec = wait}, NULL);
		if (send_parcel(exchange, 0, 1, 0, &parcel, NULL) != BR_REPLY) fail("a call had no reply");
	}
}

static void work(void)
{
	struct exchange *exchange = opened("binder");
	if (!rate) make_calls(exchange, FIRST);
	long long began = now();
	mark();
	make_calls(exchange, count);
	mark();
	printf("%lld\n", now() - began);
	fflush(stdout);
	shared->resting++;
	rest();
}

static void be_client(void) { at_depth(DEPTH, work); }

int main(int words, char **word)
{
	share_memory();
	if (words < 3 || shared == MAP_FAILED) return 64;
	bytes = strtoul(word[1], NULL, 10), count = atol(word[2]);
	if (words > 3) rate = atol(word[3]);
	if (bytes > MOST) return 64;
	make_mark();
	start_ready("service", be_service);
	start("client", be_client);
	wait_long(&shared->resting, 1);
	end_all();
	return 0;
}
