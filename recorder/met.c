#include "met.h"
#include "codes.h"
#include "link.h"
#include "side.h"
#include "slice.h"
#include "table.h"
#include <linux/android/binder.h>
#include <stdlib.h>
#include <string.h>

/* A process may name handles that it does not have: the driver says nothing of it. So if it names one above the largest,
 * all its handles are forgotten. The driver gives the lowest free number, so that one of it has as many handles. */
#define LARGEST_HANDLE 16383u
#define MOST_HANDLES 262144u		/* of all processes together, */
#define BYTES_OF_HANDLE 64u		/* and so many bytes of a file for each: a line takes about half of them */
#define DEEPEST 62			/* calls of a thread; more are not remembered */

/* The open calls of a thread: a 1, and for each call a bit, the innermost one last: 1 if the thread serves it. Without
 * any they are forgotten. */
#define NO_CALLS 1u
#define SERVES 1u

struct met_process {
	struct link all;
	u32 device, process;
	u64 *handles;			/* a bit for each */
	u32 words, count;
	int is_forgotten;		/* it has named too many handles */
};

static struct table calls;		/* by device, process and thread */
static struct table processes;		/* by device and process: the address */
static struct link all_met = LINK_LIST(all_met);
static int is_kept;
static u64 most_handles, handle_count;	/* of all processes */
static u32 most_of_process = LARGEST_HANDLE;
static struct again {			/* how far met_tell_on is */
	struct met_process *process;
	u32 word;
} again;

void met_keep(u64 most_bytes)
{
	is_kept = 1;
	most_handles = most_bytes / BYTES_OF_HANDLE;
	if (most_handles > MOST_HANDLES)
		most_handles = MOST_HANDLES;
}

static u64 key_of(u32 device, u32 process)
{
	return (u64)device << 32 | process;
}

static struct met_process *met_if(u32 device, u32 process)
{
	return table_thing(&processes, key_of(device, process), 0);
}

static struct met_process *met_of(const struct who *who)
{
	struct met_process *m = met_if(who->device, who->process);
	if (m)
		return m;
	m = allocate(sizeof *m);
	m->device = who->device;
	m->process = who->process;
	link_put_before(&all_met, &m->all);
	*table_make(&processes, key_of(who->device, who->process), 0) = (u64)(uintptr_t)m;
	return m;
}

static void drop_handles(struct met_process *m)
{
	handle_count -= m->count;
	free(m->handles);
	m->handles = NULL;
	m->words = m->count = 0;
}

static void forget_handles(struct met_process *m)
{
	drop_handles(m);
	m->is_forgotten = 1;
}

/* If all processes together have too many handles, those with the most are forgotten. The bound is halved each time, so
 * this does not come often. */
static void make_room(void)
{
	while (handle_count > most_handles) {
		most_of_process /= 2;
		for (struct link *link = all_met.next; link != &all_met; link = link->next) {
			struct met_process *m = LINKED(link, struct met_process, all);
			if (m->count > most_of_process)
				forget_handles(m);
		}
	}
}

static void add_handle(struct met_process *m, u32 handle)
{
	if (handle / 64 >= m->words) {
		u32 words = handle / 64 + 16;
		m->handles = resize(m->handles, words * sizeof *m->handles);
		memset(m->handles + m->words, 0, (words - m->words) * sizeof *m->handles);
		m->words = words;
	}
	u64 bit = 1ull << handle % 64;
	m->count += !(m->handles[handle / 64] & bit);
	handle_count += !(m->handles[handle / 64] & bit);
	m->handles[handle / 64] |= bit;
}

static void met_handle(const struct who *who, u32 handle)
{
	struct met_process *m = met_of(who);
	if (!handle || m->is_forgotten)		/* 0 is the context manager, for every process */
		return;
	if (handle <= LARGEST_HANDLE)
		add_handle(m, handle);
	if (handle > LARGEST_HANDLE || m->count > most_of_process)
		forget_handles(m);
	make_room();
}

static u64 *calls_of(const struct who *who)
{
	return table_make(&calls, key_of(who->device, who->process), who->thread);
}

static void begin_call(const struct who *who, u64 serves)
{
	u64 *open = calls_of(who);
	if (!*open)
		*open = NO_CALLS;
	if (!(*open >> DEEPEST))
		*open = *open << 1 | serves;
}

/* Ends the innermost call, if it is one of this sort. */
static void end_call(const struct who *who, u64 serves)
{
	u64 *open = calls_of(who);
	if (*open > NO_CALLS && (*open & SERVES) == serves)
		*open >>= 1;
	if (*open == NO_CALLS)
		*open = 0;
}

static void met_transaction(const struct who *who, const u8 *payload, u64 serves)
{
	struct binder_transaction_data data;
	memcpy(&data, payload, sizeof data);
	if (!serves)
		met_handle(who, data.target.handle);
	if (!(data.flags & TF_ONE_WAY))
		begin_call(who, serves);
}

static void met_command(const struct who *who, u32 word, const u8 *payload)
{
	switch (word) {
	case BC_TRANSACTION: case BC_TRANSACTION_SG: met_transaction(who, payload, 0); break;
	case BC_REPLY: case BC_REPLY_SG: end_call(who, SERVES); break;
	case BC_INCREFS: case BC_ACQUIRE: case BC_RELEASE: case BC_DECREFS: case BC_REQUEST_DEATH_NOTIFICATION:
	case BC_CLEAR_DEATH_NOTIFICATION: met_handle(who, load_u32(payload)); break;
	}
}

static void met_return(const struct who *who, u32 word, const u8 *payload)
{
	switch (word) {
	case BR_TRANSACTION: case BR_TRANSACTION_SEC_CTX: met_transaction(who, payload, SERVES); break;
	case BR_REPLY: case BR_DEAD_REPLY: case BR_FAILED_REPLY: case BR_FROZEN_REPLY: end_call(who, !SERVES); break;
	}
}

/* The handles that a delivery gives. */
static void met_objects(const struct who *who, const struct entry *entry)
{
	for (u32 i = 0; i + 8 <= entry->offsets; i += 8) {
		struct flat_binder_object object;
		u64 offset;
		entry_read(entry, entry->data + i, &offset, sizeof offset);
		if (offset > entry->data || entry->data - offset < sizeof object)
			continue;
		entry_read(entry, offset, &object, sizeof object);
		if (object.hdr.type == BINDER_TYPE_HANDLE || object.hdr.type == BINDER_TYPE_WEAK_HANDLE)
			met_handle(who, object.handle);
	}
}

void met_frame(const struct frame *frame)
{
	struct record record;
	if (!is_kept)
		return;
	for (u64 at = 0; record_at(frame->commands, frame->bytes, at, &record); at = record.end)
		if (frame->direction == DIRECTION_WRITE)
			met_command(&frame->who, record.word, record.payload);
		else
			met_return(&frame->who, record.word, record.payload);
	if (frame->direction != DIRECTION_READ)
		return;
	for (const struct entry *entry = frame->entries; entry; entry = entry->next)
		met_objects(&frame->who, entry);
}

/* Goes on to the next process that is told again. */
static void met_pass(void)
{
	struct link *next = again.process->all.next;
	again = (struct again){ next == &all_met ? NULL : LINKED(next, struct met_process, all), 0 };
}

void met_thread_ended(struct who who)
{
	table_drop(&calls, key_of(who.device, who.process), who.thread);
}

void met_process_ended(u32 device, u32 process)
{
	struct met_process *m = met_if(device, process);
	if (!m)
		return;
	if (again.process == m)
		met_pass();
	drop_handles(m);
	link_take_out(&m->all);
	table_drop(&processes, key_of(device, process), 0);
	free(m);
}

int met_knows_handles(u32 device, u32 process)
{
	const struct met_process *m = met_if(device, process);
	return !m || !m->is_forgotten;
}

void met_tell_calls(struct who who)
{
	const u64 *calls_open = table_find(&calls, key_of(who.device, who.process), who.thread);
	u32 made = 0, served = 0;
	for (u64 open = calls_open ? *calls_open : 0; open > NO_CALLS; open >>= 1) {
		made += (open & SERVES) == 0;
		served += (open & SERVES) != 0;
	}
	if (made || served)
		side_line(now(), "calls %u %u %u made=%u served=%u", who.device, who.process, who.thread, made, served);
}

static void tell_handles(const struct met_process *m, u32 word)
{
	for (u32 bit = 0; bit < 64; bit++)
		if (m->handles[word] >> bit & 1)
			side_line(now(), "handle %u %u %u", m->device, m->process, word * 64 + bit);
}

static void tell_forgotten(const struct met_process *m)
{
	side_line(now(), "handles %u %u why=%s", m->device, m->process, reason_word(REASON_TOO_MANY));
}

void met_tell_again(void)
{
	again = (struct again){ link_is_alone(&all_met) ? NULL : LINKED(all_met.next, struct met_process, all), 0 };
}

int met_tell_on(void)
{
	for (; again.process; met_pass()) {
		const struct met_process *m = again.process;
		for (; again.word < m->words; again.word++) {
			if (slice_is_over())
				return 0;
			tell_handles(m, again.word);
		}
		if (m->is_forgotten)
			tell_forgotten(m);
	}
	return 1;
}
