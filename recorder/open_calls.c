#define _GNU_SOURCE
#include "open_calls.h"
#include "codes.h"
#include "interfaces.h"
#include "pool.h"
#include "table.h"
#include <linux/android/binder.h>
#include <stdlib.h>
#include <string.h>

#define DEEPEST 62u			/* calls of a thread; more are not remembered */
#define MOST_LEVELS 262144u		/* of all threads */
#define MOST_HANDLES 65536u		/* of which it is remembered who got the last call */
#define PENDING_FROZEN _IO('r', 20)	/* BR_TRANSACTION_PENDING_FROZEN: the header may be older */

struct link open_calls = LINK_LIST(open_calls), open_processes = LINK_LIST(open_processes);
struct refused_sends refused_sends;

/* Calls that have the same sender, code and sizes, and that nobody has got yet, the oldest one first. */
struct queue {
	struct link calls;
};

int open_calls_are_kept;
static struct table threads;		/* by device, process and thread: the address */
static struct table processes;		/* by device and process: the address */
static struct table queues;		/* by what a delivery tells of its call: the address */
static struct table receivers;		/* by device, process and handle: the number of who got the last call */
static u32 level_count;

void open_calls_begin(void)
{
	open_calls_are_kept = 1;
}

static u64 key_of(u32 device, u32 process)
{
	return (u64)device << 32 | process;
}

/* ---- processes and threads */

static struct open_process *process_if(u32 device, u32 process)
{
	return table_thing(&processes, key_of(device, process), 0);
}

static struct open_process *process_of(const struct use *use)
{
	struct open_process *p = process_if(use->who.device, use->who.process);
	if (p)
		return p;
	p = allocate(sizeof *p);
	*p = (struct open_process){ .device = use->who.device, .process = use->who.process,
				    .pid = use->opening->process_id, .opening = use->opening->id };
	memcpy(p->name, use->opening->name, NAME_BYTES);
	link_put_before(&open_processes, &p->all);
	*table_make(&processes, key_of(p->device, p->process), 0) = (u64)(uintptr_t)p;
	return p;
}

void open_calls_thread(const struct use *use)
{
	if (!open_calls_are_kept)
		return;
	struct open_thread *t = allocate(sizeof *t);
	*t = (struct open_thread){ .who = use->who, .pid = use->thread->process_id, .tid = use->thread->thread_id,
				   .process = process_of(use) };
	memcpy(t->name, use->thread->name, NAME_BYTES);
	link_begin(&t->levels);
	*table_make(&threads, key_of(use->who.device, use->who.process), use->who.thread) = (u64)(uintptr_t)t;
}

static struct open_thread *thread_of(const struct who *who)
{
	return table_thing(&threads, key_of(who->device, who->process), who->thread);
}

struct open_process *open_calls_process(u32 device, u32 process)
{
	return process_if(device, process);
}

/* ---- pools */

/* Notes whether all threads of the pool serve now. */
static void look_at_pool(struct open_process *p, u64 time)
{
	int is_full = p->pool && p->serving == p->pool;
	if (is_full && !p->full_since)
		p->full_since = time;
	if (is_full)
		return;
	p->full_since = 0;
	p->mark = 0;
}

static void enter_pool(struct open_thread *t, u64 time)
{
	if (t->is_of_pool)
		return;
	t->is_of_pool = 1;
	t->process->pool++;
	t->process->serving += t->serving != 0;
	look_at_pool(t->process, time);
}

static void leave_pool(struct open_thread *t, u64 time)
{
	if (!t->is_of_pool)
		return;
	t->is_of_pool = 0;
	t->process->pool--;
	t->process->serving -= t->serving != 0;
	look_at_pool(t->process, time);
}

static void count_served(struct open_thread *t, int more, u64 time)
{
	u32 before = t->serving;
	t->serving += (u32)more;
	if (t->is_of_pool && !before != !t->serving) {
		t->process->serving += (u32)(t->serving ? 1 : -1);
		look_at_pool(t->process, time);
	}
}

/* ---- who gets a call */

/* What the receiver reads tells the sender's process, and not its thread; and the code and the sizes. */
static u64 *queue_of(u32 device, u32 sender, const struct open_level *call, int is_made)
{
	u64 key = (u64)sender << 32 | call->code;
	u32 second = (u32)call->data * 2654435761u ^ (u32)call->offsets * 40503u ^ device << 27;
	return is_made ? table_make(&queues, key, second) : table_find(&queues, key, second);
}

struct open_process *open_calls_receiver(const struct who *who, u32 handle)
{
	const u64 *receiver = table_find(&receivers, key_of(who->device, who->process), handle);
	return receiver && *receiver ? process_if(who->device, (u32)(*receiver - 1)) : NULL;
}

static void wait_for_receiver(struct open_level *call)
{
	u64 *place = queue_of(call->thread->who.device, call->thread->pid, call, 1);
	struct queue *queue = (void *)(uintptr_t)*place;
	if (!queue) {
		queue = pool_take(sizeof *queue);
		link_begin(&queue->calls);
		*place = (u64)(uintptr_t)queue;
	}
	link_put_before(&queue->calls, &call->alike);
	call->receiver = open_calls_receiver(&call->thread->who, call->handle);
	if (call->receiver)
		call->receiver->waiting++;
}

/* Nobody is to get the call any more: somebody has got it, or it has ended. */
static void stop_waiting(struct open_level *call)
{
	if (link_is_alone(&call->alike))
		return;
	if (call->receiver)
		call->receiver->waiting--;
	call->receiver = NULL;
	link_take_out(&call->alike);
	u64 *place = queue_of(call->thread->who.device, call->thread->pid, call, 0);
	struct queue *queue = (void *)(uintptr_t)*place;
	if (!link_is_alone(&queue->calls))
		return;
	pool_give(queue, sizeof *queue);
	*place = 0;
}

void open_calls_note_receiver(const struct who *who, u32 handle, u32 receiver)
{
	if (receivers.used >= MOST_HANDLES)
		table_empty(&receivers);
	*table_make(&receivers, key_of(who->device, who->process), handle) = receiver + 1ull;
}

/* A process lets go of a handle, which may mean another object when it has it again. */
static void forget_receiver(const struct who *who, u32 handle)
{
	table_drop(&receivers, key_of(who->device, who->process), handle);
}

/* The oldest one of the calls that this one, which a thread has got, may be; or NULL. */
static struct open_level *call_for(const struct open_level *served, u32 sender)
{
	u64 *place = queue_of(served->thread->who.device, sender, served, 0);
	struct queue *queue = place ? (void *)(uintptr_t)*place : NULL;
	struct open_level *call = queue ? LINKED(queue->calls.next, struct open_level, alike) : NULL;
	return call && call->thread->pid == sender && call->thread->who.device == served->thread->who.device &&
	       call->code == served->code && call->data == served->data ? call : NULL;
}

/* ---- levels */

static struct open_level *innermost(struct open_thread *t)
{
	return link_is_alone(&t->levels) ? NULL : LINKED(t->levels.before, struct open_level, of_thread);
}

struct open_level *open_calls_innermost(const struct who *who)
{
	struct open_thread *t = thread_of(who);
	return t ? innermost(t) : NULL;
}

/* NULL if there are too many. */
static struct open_level *begin_level(struct open_thread *t, const struct frame *frame, u32 record,
				      const struct binder_transaction_data *data, int serves)
{
	if (t->beyond || t->depth == DEEPEST || level_count == MOST_LEVELS) {
		t->beyond++;
		return NULL;
	}
	struct open_level *level = pool_take(sizeof *level);
	*level = (struct open_level){ .thread = t, .serves = serves, .since = frame->time, .number = frame->number,
				      .record = record, .code = data->code, .handle = data->target.handle,
				      .flags = data->flags, .data = data->data_size, .offsets = data->offsets_size,
				      .interface = interface_of(frame, record) };
	link_put_before(&t->levels, &level->of_thread);
	link_begin(&level->by_age);
	link_begin(&level->alike);
	t->depth++;
	level_count++;
	return level;
}

static void end_level(struct open_level *level, u64 time)
{
	struct open_thread *t = level->thread;
	stop_waiting(level);
	if (level->other)
		level->other->other = NULL;
	link_take_out(&level->of_thread);
	link_take_out(&level->by_age);
	t->depth--;
	level_count--;
	if (level->serves)
		count_served(t, -1, time);
	pool_give(level, sizeof *level);
}

/* Ends the innermost call, if it is one of this sort. */
static void end_call(struct open_thread *t, int serves, u64 time)
{
	struct open_level *level = innermost(t);
	if (t->beyond)
		t->beyond--;
	else if (level && level->serves == serves)
		end_level(level, time);
}

static void make_call(struct open_thread *t, const struct frame *frame, u32 record,
		      const struct binder_transaction_data *data)
{
	struct open_level *call = begin_level(t, frame, record, data, 0);
	if (!call)
		return;
	link_put_before(&open_calls, &call->by_age);
	wait_for_receiver(call);
}

static void serve_call(struct open_thread *t, const struct frame *frame, u32 record,
		       const struct binder_transaction_data *data)
{
	struct open_level *served = begin_level(t, frame, record, data, 1);
	if (!served)
		return;
	count_served(t, 1, frame->time);
	struct open_level *call = call_for(served, (u32)data->sender_pid);
	if (!call)
		return;
	open_calls_note_receiver(&call->thread->who, call->handle, t->who.process);
	stop_waiting(call);
	call->other = served;
	served->other = call;
}

/* ---- records */

static struct binder_transaction_data data_of(const u8 *payload)
{
	struct binder_transaction_data data;
	memcpy(&data, payload, sizeof data);
	return data;
}

static void note_send(struct open_thread *t, const struct frame *frame, u32 record)
{
	t->unconfirmed++;
	t->sent = frame->number;
	t->sent_record = record;
}

static void take_command(struct open_thread *t, const struct frame *frame, u32 at, u32 word, const u8 *payload)
{
	struct binder_transaction_data data;
	switch (word) {
	case BC_TRANSACTION: case BC_TRANSACTION_SG:
		data = data_of(payload);
		note_send(t, frame, at);
		if (!(data.flags & TF_ONE_WAY))
			make_call(t, frame, at, &data);
		break;
	case BC_REPLY: case BC_REPLY_SG:
		note_send(t, frame, at);
		end_call(t, 1, frame->time);
		break;
	case BC_RELEASE: case BC_DECREFS: forget_receiver(&t->who, load_u32(payload)); break;
	case BC_ENTER_LOOPER: case BC_REGISTER_LOOPER: enter_pool(t, frame->time); break;
	case BC_EXIT_LOOPER: leave_pool(t, frame->time); break;
	}
}

static void confirm_send(struct open_thread *t)
{
	t->unconfirmed -= t->unconfirmed != 0;
}

/* An error is the answer of the innermost call; but if what came of a send is not known yet, the driver refused that. */
static void take_error(struct open_thread *t, u64 time)
{
	if (t->unconfirmed) {
		refused_sends = (struct refused_sends){ refused_sends.count + 1, time, t->sent, t->sent_record, t->pid };
		confirm_send(t);
	}
	end_call(t, 0, time);
}

/* A oneway call has no answer: the thread works on it until it writes again, or for longer. */
static void take_delivery(struct open_thread *t, const struct frame *frame, u32 at, const u8 *payload)
{
	struct binder_transaction_data data = data_of(payload);
	if (!t->depth)				/* else it serves what its own call leads to */
		enter_pool(t, frame->time);
	if (!(data.flags & TF_ONE_WAY))
		serve_call(t, frame, at, &data);
	else if (!t->has_oneway)
		count_served(t, 1, frame->time);
	t->has_oneway |= (data.flags & TF_ONE_WAY) != 0;
}

static void end_oneway(struct open_thread *t, u64 time)
{
	if (!t->has_oneway || t->depth)
		return;
	t->has_oneway = 0;
	count_served(t, -1, time);
}

static void take_return(struct open_thread *t, const struct frame *frame, u32 at, u32 word, const u8 *payload)
{
	switch (word) {
	case BR_TRANSACTION: case BR_TRANSACTION_SEC_CTX: take_delivery(t, frame, at, payload); break;
	case BR_REPLY: end_call(t, 0, frame->time); break;
	case BR_DEAD_REPLY: case BR_FAILED_REPLY: case BR_FROZEN_REPLY: take_error(t, frame->time); break;
	case BR_TRANSACTION_COMPLETE: case BR_ONEWAY_SPAM_SUSPECT: case PENDING_FROZEN:
		confirm_send(t);
		break;
	}
}

void open_calls_take(const struct frame *frame)
{
	struct record record;
	struct open_thread *t = thread_of(&frame->who);
	for (u64 at = 0; t && record_at(frame->commands, frame->bytes, at, &record); at = record.end)
		if (frame->direction == DIRECTION_WRITE)
			take_command(t, frame, (u32)at, record.word, record.payload);
		else
			take_return(t, frame, (u32)at, record.word, record.payload);
	if (t && frame->direction == DIRECTION_WRITE)
		end_oneway(t, frame->time);
}

/* ---- ends */

void open_calls_thread_ended(struct who who)
{
	struct open_thread *t = open_calls_are_kept ? thread_of(&who) : NULL;
	if (!t)
		return;
	while (!link_is_alone(&t->levels))
		end_level(innermost(t), now());
	leave_pool(t, now());
	table_drop(&threads, key_of(who.device, who.process), who.thread);
	free(t);
}

/* Its threads have ended before it. */
void open_calls_process_ended(u32 device, u32 process)
{
	struct open_process *p = open_calls_are_kept ? process_if(device, process) : NULL;
	if (!p)
		return;
	for (struct link *link = p->waiting ? open_calls.next : &open_calls; link != &open_calls; link = link->next)
		if (open_call_at(link)->receiver == p)
			open_call_at(link)->receiver = NULL;
	link_take_out(&p->all);
	table_drop(&processes, key_of(device, process), 0);
	free(p);
}
