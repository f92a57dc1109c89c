/* Scenarios in which the drivers in C and in Rust do different things: cut, unwritten, outsider. */
#include <errno.h>
#include <fcntl.h>
#include <string.h>
#include <sys/ioctl.h>
#include <sys/mman.h>
#include <unistd.h>
#include "scenarios.h"

#define COMMAND 8u		/* bytes of BC_INCREFS and of BC_DECREFS */

/* Two pages of which only the first one is there. Returns where that one ends. */
static uint8_t *edge(void)
{
	uint8_t *pages = own_memory(2 * PAGE, 0);
	if (munmap(pages + PAGE, PAGE)) fail("cut: memory");
	return pages + PAGE;
}

/* Writes so many commands, by turns a weak reference to the manager and its end, from there on. */
static void put_commands(uint8_t *to, int count)
{
	for (int i = 0; i < count; i++) {
		const uint32_t words[2] = {i % 2 ? BC_DECREFS : BC_INCREFS, MANAGER};
		memcpy(to + i * COMMAND, words, COMMAND);
	}
}

/* Whether the driver takes a last command of which a part is beyond the end of the write, as the one in C does. */
static void must_take(const struct opening *opening, const void *bytes, size_t size, int64_t whole, const char *what)
{
	int64_t came = hand_over(opening, bytes, size);
	if (came != whole && came != -EFAULT) fail(what);
}

/* ---- cut: writes whose last command, or code word, is cut or can't be read */

static void cutting_client(struct exchange *exchange)
{
	const struct opening *opening = exchange->opening;
	uint8_t commands[8 * COMMAND], *end = edge();
	put_commands(commands, 8);
	must_take(opening, commands, COMMAND - 2, COMMAND, "cut: one");		/* alone, cut in its payload */
	must_take(opening, commands, 2 * COMMAND - 2, 2 * COMMAND, "cut: the second");
	int64_t came = hand_over(opening, commands, 2 * COMMAND + 2);		/* two bytes of a code word */
	if (came != 2 * COMMAND && came != 3 * COMMAND) fail("cut: code word");
	memcpy(end - 4, commands, 4);						/* the payload is not there */
	if (hand_over(opening, end - 4, COMMAND) != -EFAULT) fail("cut: payload");
	memcpy(end - COMMAND, commands, COMMAND);				/* nor the next code word */
	if (hand_over(opening, end - COMMAND, 2 * COMMAND) != -EFAULT) fail("cut: next code word");
}

/* ---- unwritten: a write of which the driver can't tell how much it consumed */

static void unwritable_client(struct exchange *exchange)
{
	struct binder_write_read *call = own_memory(PAGE, 0);
	uint8_t *end = edge();		/* nothing is mapped after that: it might be the page that is away */
	put_commands(end - COMMAND, 1);
	call->write_buffer = (binder_uintptr_t)(uintptr_t)(end - COMMAND);
	call->write_size = 2 * COMMAND;
	if (mprotect(call, PAGE, PROT_READ)) fail("unwritten: protection");
	if (ioctl(exchange->opening->descriptor, BINDER_WRITE_READ, call) >= 0 || errno != EFAULT) fail("unwritten");
}

/* ---- outsider: a service of which no thread says that it takes calls. The driver in C hands a call to any thread that
 * reads, and the one in Rust to none. It reads again and again without waiting, also into room for a code word
 * alone. */

static void read_some(struct exchange *exchange, size_t room)
{
	int error = turn_into(exchange, room);
	if (error && error != -EAGAIN) fail("outsider: read");
	drain(exchange);
}

static void outsider(void)
{
	struct exchange *exchange = registered(serve);
	if (fcntl(exchange->opening->descriptor, F_SETFL, O_RDWR | O_NONBLOCK)) fail("outsider: descriptor");
	shared->ready++;
	for (int i = 0; !shared->ending; i++) {
		if (i < 60) read_some(exchange, i % 3 ? sizeof exchange->read : 4);
		if (i == 60) shared->resting++;
		usleep(10000);
	}
	rest();
}

static void hopeful_client(struct exchange *exchange, uint32_t handle)
{
	queue_send(exchange, handle, ECHO, 0, NULL);
	receive(exchange);
	receive(exchange);
	rest();
}

const struct scenario apart_scenarios[] = {
	{"cut", .caller = cutting_client}, {"unwritten", .caller = unwritable_client},
	{"outsider", .service_name = "outsider", .service = outsider, .client = hopeful_client}, {0}};
