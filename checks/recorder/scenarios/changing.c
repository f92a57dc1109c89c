/* Scenarios of a process that has no rights, and changes its own writes after the recorder has copied them and before
 * the driver looks at them: changed-record, changed-inside. Beside it a client makes calls, and so does another one
 * after it, of which nothing may be lost.
 *
 * A thread of the process makes the change while the driver waits for a page of the data of an earlier send in the same
 * write. The page is that of a userfaultfd, which stands for the ways in which an app of Android makes the kernel wait
 * for a page: a file of a file system of its own, or a page that is not there yet. */
#define _GNU_SOURCE
#include <errno.h>
#include <grp.h>
#include <linux/userfaultfd.h>
#include <stdio.h>
#include <string.h>
#include <sys/ioctl.h>
#include <sys/mman.h>
#include <sys/stat.h>
#include <unistd.h>
#include "scenarios.h"

enum {
	USER = 1000,
	TIMES = 12,			/* how many writes are changed */
	ATTACHED = 64,			/* sends of a write of which the recorder takes the data */
	AFTER = 50,			/* calls of the client after the last change */
	UNKNOWN = 127,			/* the number of no command */
};

#define COMMAND_OF(bytes, number) _IOC(_IOC_WRITE, 'c', number, bytes)

static int faults;			/* the userfaultfd */
static uint8_t *late;			/* the page that the driver waits for */
static uint8_t *place;			/* in the write: where it is changed, */
static uint32_t before[2], after[2];	/* from these words to those */
static char sent_data[64];

/* Changes the write when the driver waits for the page, and then gives it the page. */
static void *change_when_awaited(void *unused)
{
	struct uffdio_zeropage page = {.range = {(uintptr_t)late, PAGE}};
	struct uffd_msg message;
	for (;;) {
		if (read(faults, &message, sizeof message) != sizeof message) {
			if (errno != EINTR) fail("changing: message");
			continue;
		}
		memcpy(place, after, sizeof after);
		if (ioctl(faults, UFFDIO_ZEROPAGE, &page) < 0) fail("changing: page");
	}
	return unused;
}

/* Root opens the page, as newer kernels let nobody else; from then on the process has no rights. */
static struct exchange *without_rights(void)
{
	late = awaited_page(&faults);
	if (setgroups(0, NULL) || setresgid(USER, USER, USER) || setresuid(USER, USER, USER)) fail("changing: user");
	struct exchange *exchange = opened("binder");
	start_thread(change_when_awaited, NULL);
	return exchange;
}

/* Hands the write over, again and again, as it is before the change; then reads that all its sends were taken. */
static void change_writes(struct exchange *exchange, const uint8_t *write, size_t size, int sends)
{
	for (int time = 0; time < TIMES; time++) {
		memcpy(place, before, sizeof before);
		if (madvise(late, PAGE, MADV_DONTNEED)) fail("changing: madvise");
		if (hand_over(exchange->opening, write, size) != (int64_t)size) fail("changing: write");
		if (memcmp(place, after, sizeof after)) fail("changing: nothing was changed");
		read_returns(exchange, BR_TRANSACTION_COMPLETE, sends);
	}
	printf("changing: user %d, %d writes were changed\n", getuid(), TIMES);
	fflush(stdout);
	shared->stage++;
	ready_to_rest(exchange);
}

/* ---- changed-record: an unknown command becomes a send with the same bytes */

static void changing_record(void)
{
	struct exchange *exchange = without_rights();
	struct sent write[2];
	write[0] = sent_to(MANAGER, ECHO, TF_ONE_WAY, late, sizeof sent_data);
	write[1] = sent_to(MANAGER, ECHO, TF_ONE_WAY, sent_data, sizeof sent_data);
	place = (uint8_t *)&write[1];
	memcpy(after, place, sizeof after);
	memcpy(before, place, sizeof before);
	before[0] = COMMAND_OF(sizeof(transaction), UNKNOWN);
	change_writes(exchange, (uint8_t *)write, sizeof write, 2);
}

/* ---- changed-inside: an unknown command becomes a short one and a send, whose data the recorder leaves out; where the
 * send is now, the copy has the number of bytes of a command that is longer than the write */

static void changing_inside(void)
{
	struct exchange *exchange = without_rights();
	struct {
		struct sent sends[ATTACHED];
		uint32_t word;
		struct sent inside;
	} __attribute__((packed)) write;
	write.sends[0] = sent_to(MANAGER, ECHO, TF_ONE_WAY, late, sizeof sent_data);
	for (int i = 1; i < ATTACHED; i++)
		write.sends[i] = sent_to(MANAGER, ECHO, TF_ONE_WAY, sent_data, sizeof sent_data);
	write.inside = sent_to(MANAGER, ECHO, TF_ONE_WAY, sent_data, sizeof sent_data);
	place = (uint8_t *)&write + sizeof write.sends;
	after[0] = BC_ENTER_LOOPER;
	after[1] = BC_TRANSACTION;
	before[0] = COMMAND_OF(sizeof write.inside, UNKNOWN);
	before[1] = COMMAND_OF(_IOC_SIZEMASK, UNKNOWN);
	change_writes(exchange, (uint8_t *)&write, sizeof write, ATTACHED + 1);
}

/* ---- the others */

static void steady_client(struct exchange *exchange, uint32_t handle)
{
	struct parcel parcel = {.size = 200};
	shared->ready++;
	for (int after_it = 0; after_it < AFTER; after_it += shared->stage)
		if (send_parcel(exchange, handle, ECHO, 0, &parcel, NULL) != BR_REPLY) fail("changing: a call");
	let_go(exchange, handle);
}

static void later(struct exchange *exchange, uint32_t handle)
{
	calls(exchange, handle, ECHO, AFTER);
	let_go(exchange, handle);
}

static void beside_clients(void)
{
	if (chmod("/dev/binder", 0666)) fail("changing: chmod");	/* as in Android */
	manager_and_service("service", service);
	start_ready_client("client", steady_client);
	start("changing", played->process);
	wait_until(&shared->resting, 2);
	clients_to_rest(1, "later", later);
}

const struct scenario changing_scenarios[] = {
	{"changed-record", .run = beside_clients, .process = changing_record},
	{"changed-inside", .run = beside_clients, .process = changing_inside}, {0}};
