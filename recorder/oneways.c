#include "oneways.h"
#include "pool.h"
#include "table.h"
#include <string.h>

#define MOST_SENT 65536u		/* that nobody has got, and */
#define MOST_HELD 65536u		/* whose data was not freed; of more the oldest ones are forgotten */
#define FIRST_DATA 64u			/* bytes of the data that tell one from others */
#define MOST_LOOKED_AT 16u		/* how many of those that look the same may be for somebody else */
#define MOST_BEFORE_REFUSED 64u		/* sends of all threads between a send and what came of it */

/* One that nobody has got yet. The one that a process sends next for a handle comes after it. */
struct sent {
	struct link all, alike, of_handle;
	struct who who;
	u64 number, look, bytes;
	u32 record, handle;
	u32 has_receiver, receiver;	/* the process that gets it */
};

/* One whose data is with who got it. */
struct held {
	struct link all;
	u32 device, process;
	u64 address, bytes;
};

static struct link all_sent = LINK_LIST(all_sent), all_held = LINK_LIST(all_held);
static u32 sent_count, held_count;
static struct oneways_unknown unknown;
static struct table alike;		/* by look: the list of those that look so */
static struct table of_handle;		/* by device, process and handle: the list of those in order */
static struct table held;		/* by device, process and address: the address of what is held */

static u64 key_of(u32 device, u32 process)
{
	return (u64)device << 32 | process;
}

/* ---- lists in tables */

static struct link *list_in(struct table *table, u64 key, u32 second)
{
	u64 *place = table_make(table, key, second);
	struct link *list = (void *)(uintptr_t)*place;
	if (list)
		return list;
	list = pool_take(sizeof *list);
	link_begin(list);
	*place = (u64)(uintptr_t)list;
	return list;
}

static void take_out(struct link *link, struct table *table, u64 key, u32 second)
{
	struct link *list = table_thing(table, key, second);
	link_take_out(link);
	if (!list || !link_is_alone(list))
		return;
	pool_give(list, sizeof *list);
	table_drop(table, key, second);
}

/* ---- the async space */

/* What the driver takes of it, but for its own. */
static u64 bytes_of(const struct binder_transaction_data *data)
{
	return MULTIPLE_OF_8(data->data_size) + MULTIPLE_OF_8(data->offsets_size);
}

static void count_in(u32 device, u32 process, u64 bytes)
{
	struct open_process *p = open_calls_process(device, process);
	if (!p)
		return;
	p->oneways++;
	p->oneway_bytes += bytes;
}

static void count_out(u32 device, u32 process, u64 bytes)
{
	struct open_process *p = open_calls_process(device, process);
	if (!p || !p->oneways || p->oneway_bytes < bytes)
		return;
	p->oneways--;
	p->oneway_bytes -= bytes;
}

static void forget_held(struct held *h)
{
	count_out(h->device, h->process, h->bytes);
	table_drop(&held, key_of(h->device, h->process) ^ h->address * 0x9e3779b97f4a7c15u, (u32)h->address);
	link_take_out(&h->all);
	held_count--;
	pool_give(h, sizeof *h);
}

static struct held **held_at(const struct who *who, u64 address, int is_new)
{
	u64 key = key_of(who->device, who->process) ^ address * 0x9e3779b97f4a7c15u;
	return (struct held **)(is_new ? table_make(&held, key, (u32)address) : table_find(&held, key, (u32)address));
}

static void hold(const struct who *who, u64 address, u64 bytes)
{
	oneways_freed(who, address);		/* its free was lost */
	if (held_count == MOST_HELD)
		forget_held(LINKED(all_held.next, struct held, all));
	struct held *h = pool_take(sizeof *h);
	*h = (struct held){ .device = who->device, .process = who->process, .address = address, .bytes = bytes };
	link_put_before(&all_held, &h->all);
	held_count++;
	*held_at(who, address, 1) = h;
	count_in(who->device, who->process, bytes);
}

void oneways_freed(const struct who *who, u64 address)
{
	struct held **h = held_at(who, address, 0);
	if (h && *h)
		forget_held(*h);
}

/* ---- sends */

/* A number that a send and its delivery have together. The driver changes what comes from the first object on. */
static u64 look_of(const struct frame *frame, u32 record, const struct binder_transaction_data *data)
{
	u64 look = (u64)data->code << 32 ^ data->data_size * 2654435761u ^ data->offsets_size << 24 ^ data->flags ^
		   (u64)frame->who.device << 56, words[FIRST_DATA / sizeof(u64)] = { 0 }, first = FIRST_DATA;
	const struct entry *entry = frame->entries;
	while (entry && entry->record < record)
		entry = entry->next;
	if (!entry || entry->record != record || entry->got != (u64)entry->data + entry->offsets)
		return look;
	if (entry->offsets >= sizeof first)
		entry_read(entry, entry->data, &first, sizeof first);
	first = first < entry->data ? first : entry->data;
	entry_read(entry, 0, words, first < FIRST_DATA ? first : FIRST_DATA);
	for (u32 i = 0; i < FIRST_DATA / sizeof *words; i++)
		look = (look ^ words[i]) * 1099511628211u;
	return look;
}

static void forget_sent(struct sent *s)
{
	if (s->has_receiver) {
		count_out(s->who.device, s->receiver, s->bytes);
	} else {
		unknown.count--;
		unknown.bytes -= s->bytes;
	}
	take_out(&s->alike, &alike, s->look, 0);
	take_out(&s->of_handle, &of_handle, key_of(s->who.device, s->who.process), s->handle);
	link_take_out(&s->all);
	sent_count--;
	pool_give(s, sizeof *s);
}

void oneways_sent(const struct frame *frame, u32 record, const struct binder_transaction_data *data)
{
	if (sent_count == MOST_SENT)
		forget_sent(LINKED(all_sent.next, struct sent, all));
	struct sent *s = pool_take(sizeof *s);
	*s = (struct sent){ .who = frame->who, .number = frame->number, .record = record, .handle = data->target.handle,
			    .look = look_of(frame, record, data), .bytes = bytes_of(data) };
	const struct open_process *receiver = open_calls_receiver(&s->who, s->handle);
	if (receiver) {
		s->has_receiver = 1;
		s->receiver = receiver->process;
		count_in(s->who.device, s->receiver, s->bytes);
	} else {
		unknown.count++;
		unknown.bytes += s->bytes;
	}
	link_put_before(&all_sent, &s->all);
	link_put_before(list_in(&alike, s->look, 0), &s->alike);
	link_put_before(list_in(&of_handle, key_of(s->who.device, s->who.process), s->handle), &s->of_handle);
	sent_count++;
}

/* The oldest one that looks so, and is not known to be for another process; or NULL. */
static struct sent *sent_for(const struct who *who, u64 look)
{
	const struct link *list = table_thing(&alike, look, 0);
	u32 looked_at = 0;
	for (struct link *link = list ? list->next : NULL; link && link != list; link = link->next) {
		struct sent *s = LINKED(link, struct sent, alike);
		if (!s->has_receiver || s->receiver == who->process)
			return s;
		if (++looked_at == MOST_LOOKED_AT)
			break;
	}
	return NULL;
}

u64 oneways_delivered(const struct frame *frame, u32 record, const struct binder_transaction_data *data)
{
	struct sent *s = sent_for(&frame->who, look_of(frame, record, data));
	u64 sender = 0;
	if (s) {
		sender = s->who.process + 1ull;
		open_calls_note_receiver(&s->who, s->handle, frame->who.process);
		/* An object gets them in their order: of what was sent to it before, the delivery was lost. */
		for (int is_last = 0; !is_last;) {
			const struct link *list = table_thing(&of_handle, key_of(s->who.device, s->who.process), s->handle);
			struct sent *first = LINKED(list->next, struct sent, of_handle);
			is_last = first == s;
			forget_sent(first);
		}
	}
	hold(&frame->who, data->data.ptr.buffer, bytes_of(data));
	return sender;
}

struct oneways_unknown oneways_unknown(void)
{
	return unknown;
}

void oneways_refused(u64 number, u32 record)
{
	struct link *link = all_sent.before;
	for (u32 i = 0; i < MOST_BEFORE_REFUSED && link != &all_sent; i++, link = link->before) {
		struct sent *s = LINKED(link, struct sent, all);
		if (s->number != number || s->record != record)
			continue;
		forget_sent(s);
		return;
	}
}
