#define _GNU_SOURCE
#include "descriptors.h"
#include "codes.h"
#include "names.h"
#include "process.h"
#include "side.h"
#include "table.h"
#include <dirent.h>
#include <linux/android/binder.h>
#include <stdio.h>
#include <stdlib.h>
#include <sys/resource.h>

#define MOST_RECEIVERS 1024u
#define LOOK_EVERY 1000000000u		/* nanoseconds */

/* What a look found. */
struct look {
	u64 time, open, limit;
};

/* An opening, by its numbers in the capture, and its process. */
struct receiver {
	struct link all;
	u32 device, number;
	u32 process;
	u64 start;
	struct look first, last;
	int is_looked_at;		/* at the end */
};

struct link descriptors_receivers = LINK_LIST(descriptors_receivers);
static struct table receivers;		/* by device and number: the address */
static u32 count;

/* ---- what a process has open */

/* Returns 0 if that can't be read. */
static int count_open(u32 process, u64 *open)
{
	char path[64];
	snprintf(path, sizeof path, "/proc/%u/fd", process);
	DIR *folder = opendir(path);
	if (!folder)
		return 0;
	*open = 0;
	for (struct dirent *entry; (entry = readdir(folder)) != NULL;)
		*open += entry->d_name[0] != '.';
	closedir(folder);
	return 1;
}

/* Looks at the process. Returns 0 if it is not there any more. */
static int look_at(const struct receiver *receiver, struct look *look)
{
	struct rlimit limit;
	look->time = now();
	if (!process_is(receiver->process, receiver->start) || !count_open(receiver->process, &look->open) ||
	    prlimit((pid_t)receiver->process, RLIMIT_NOFILE, NULL, &limit) ||
	    !process_is(receiver->process, receiver->start))
		return 0;
	look->limit = limit.rlim_cur;
	return 1;
}

static void tell(const struct receiver *receiver, const struct look *look, const char *why)
{
	side_line(look->time, "descriptors %u %u open=%llu limit=%llu why=%s", receiver->device, receiver->number,
		  (unsigned long long)look->open, (unsigned long long)look->limit, why);
}

/* ---- who receives some */

static u64 key_of(u32 device, u32 number)
{
	return (u64)device << 32 | number;
}

static struct receiver *receiver_of(const struct who *who)
{
	return table_thing(&receivers, key_of(who->device, who->process), 0);
}

/* The process may have ended meanwhile, and is none then. */
static void add_receiver(const struct who *who)
{
	struct receiver made = { .device = who->device, .number = who->process };
	if (count == MOST_RECEIVERS || !names_process(who->device, who->process, &made.process, &made.start) ||
	    !look_at(&made, &made.first))
		return;
	struct receiver *receiver = allocate(sizeof *receiver);
	*receiver = made;
	receiver->last = made.first;
	link_put_before(&descriptors_receivers, &receiver->all);
	*table_make(&receivers, key_of(who->device, who->process), 0) = (u64)(uintptr_t)receiver;
	count++;
	tell(receiver, &receiver->first, "first");
}

static void look_again(struct receiver *receiver)
{
	if (now() - receiver->last.time >= LOOK_EVERY && look_at(receiver, &receiver->last))
		tell(receiver, &receiver->last, "failed");
}

void descriptors_process_ended(u32 device, u32 number)
{
	struct receiver *receiver = table_thing(&receivers, key_of(device, number), 0);
	if (!receiver)
		return;
	table_drop(&receivers, key_of(device, number), 0);
	link_take_out(&receiver->all);
	free(receiver);
	count--;
}

/* Whether one of the objects is a descriptor, or an array of them. */
static int has_descriptor(const struct entry *entry)
{
	if (entry->got != (u64)entry->data + entry->offsets)
		return 0;
	for (u64 at = entry->data; at + sizeof(u64) <= entry->got; at += sizeof(u64)) {
		u64 offset;
		u32 type;
		entry_read(entry, at, &offset, sizeof offset);
		if (offset > entry->data || entry->data - offset < sizeof type)
			continue;
		entry_read(entry, offset, &type, sizeof type);
		if (type == BINDER_TYPE_FD || type == BINDER_TYPE_FDA)
			return 1;
	}
	return 0;
}

static int receives(const struct frame *frame)
{
	for (const struct entry *entry = frame->entries; entry; entry = entry->next)
		if (entry->offsets && has_descriptor(entry))
			return 1;
	return 0;
}

/* Whether a call has failed: if there is no room for a descriptor of its reply, the driver says no more than that. */
static int has_failed(const struct frame *frame)
{
	struct record record;
	for (u64 at = 0; record_at(frame->commands, frame->bytes, at, &record); at = record.end)
		if (record.word == BR_FAILED_REPLY)
			return 1;
	return 0;
}

void descriptors_take(const struct frame *frame)
{
	struct receiver *receiver = count ? receiver_of(&frame->who) : NULL;
	if (!receiver && receives(frame))
		add_receiver(&frame->who);
	else if (receiver && has_failed(frame))
		look_again(receiver);
}

/* ---- the side list */

void descriptors_tell_again(void)
{
	for (struct link *link = descriptors_receivers.next; link != &descriptors_receivers; link = link->next) {
		const struct receiver *receiver = LINKED(link, struct receiver, all);
		tell(receiver, &receiver->first, "first");
	}
}

void descriptors_look(void)
{
	for (struct link *link = descriptors_receivers.next; link != &descriptors_receivers; link = link->next) {
		struct receiver *receiver = LINKED(link, struct receiver, all);
		receiver->is_looked_at = look_at(receiver, &receiver->last);
	}
}

void descriptors_tell(void)
{
	for (struct link *link = descriptors_receivers.next; link != &descriptors_receivers; link = link->next) {
		const struct receiver *receiver = LINKED(link, struct receiver, all);
		if (receiver->is_looked_at)
			tell(receiver, &receiver->last, "end");
	}
}
