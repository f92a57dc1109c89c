#include "names.h"
#include "command.h"
#include "devices.h"
#include "known.h"
#include "met.h"
#include "open_calls.h"
#include "side.h"
#include "slice.h"
#include "table.h"
#include <stdio.h>
#include <stdlib.h>
#include <string.h>
#include <time.h>

/* Linux gives only ids below this number. An id that would mean two things is replaced by a number from here on. */
#define FIRST_OWN_NUMBER 4194304u
#define LAST_WAIT 1000000000u		/* for the last command lines, in nanoseconds */

static u32 *devices, device_count;
static void (*tell_end)(u32 process, u64 time, u64 after);
static struct table process_numbers;	/* of each device: that mean a process */
static struct again {			/* how far names_tell_on is, in which side list */
	u32 list;
	struct link opening, use;	/* before the next ones, as long as there are any */
} again = { .list = 1, .opening = LINK_LIST(again.opening), .use = LINK_LIST(again.use) };

/* ---- openings */

static void tell_met(struct known_opening *o, u64 time)
{
	char clean[CLEAN_NAME_BYTES];
	o->list = again.list;
	clean_name(clean, o->name, NAME_BYTES);
	side_line(time, "met opening=%u pid=%u name=%s", o->id, o->process_id, clean);
}

void names_opening(u32 opening, u64 time, u32 device, u32 process, u64 start, const char *name, enum met met)
{
	struct known_opening *o = known_opening(opening);
	o->system_device = device;
	o->process_id = process;
	o->start = start;
	o->met = met;
	o->known = 1;
	o->told = time;
	memcpy(o->name, name, NAME_BYTES);
	if (met == MET_IN_MID_LIFE)
		tell_met(o, time);
}

void names_space(u32 opening, u32 space, u32 id_there)
{
	struct known_opening *o = known_opening(opening);
	o->space = space;
	o->id_there = id_there;
}

static void tell_device(u32 device, u64 time)
{
	char name[CLEAN_NAME_BYTES];
	device_name(devices[device], name);
	side_line(time, "device %u major=%u minor=%u name=%s", device, device_major(devices[device]),
		  device_minor(devices[device]), name);
}

static u32 device_number(u32 system_device, u64 time)
{
	for (u32 i = 0; i < device_count; i++)
		if (devices[i] == system_device)
			return i;
	devices = resize(devices, (device_count + 1) * sizeof *devices);
	devices[device_count] = system_device;
	tell_device(device_count, time);
	return device_count++;
}

/* The wanted number if it means nothing else yet, or one of the recorder's own. A process with ids of its own namespace
 * gets such a one: the driver tells others its id there, which means another process here. The table has a bit for each
 * number that means something, 64 of them together. */
static u32 free_number(struct table *used, u32 key, u32 wanted, int is_usable)
{
	static u32 next_own_number = FIRST_OWN_NUMBER;
	u64 *taken = table_make(used, key, wanted / 64), bit = 1ull << wanted % 64;
	u32 number = *taken & bit || !is_usable || wanted >= FIRST_OWN_NUMBER ? next_own_number++ : wanted;
	*taken |= bit;
	return number;
}

static void tell_process(struct known_opening *o, const char *met)
{
	char clean[CLEAN_NAME_BYTES], space[64] = "";
	o->list = again.list;
	clean_name(clean, o->name, NAME_BYTES);
	if (o->space)
		snprintf(space, sizeof space, " pidns=%u nspid=%u", o->space, o->id_there);
	side_line(o->told, "process %u %u pid=%u start=%llu opening=%u met=%s%s name=%s", o->device, o->process,
		  o->process_id, (unsigned long long)o->start, o->id, met, space, clean);
	const char *command = command_line(o->id, o->device, o->process);
	if (command)
		side_line(o->told, "%s", command);
}

static void number_opening(struct known_opening *o, u64 time)
{
	if (o->numbered)
		return;
	o->numbered = 1;
	o->told = time;
	o->device = device_number(o->system_device, time);
	o->process = free_number(&process_numbers, o->device, o->process_id, o->known && !o->space);
	tell_process(o, o->met == MET_FROM_START ? "from-start" : "in-mid-life");
}

void names_closed(u32 opening, u64 time, u64 after)
{
	struct known_opening *o = known_opening(opening);
	if (known_has_ended(&o->ending))
		return;
	known_end(&o->ending, after);
	if (o->numbered)
		later_line(time, after, "end opening %u %u after=%llu", o->device, o->process,
			   (unsigned long long)after);
}

/* ---- command lines */

static void tell_command(const struct command *command)
{
	const struct known_opening *o = known_opening(command->head.opening);
	if (command_keep(command) && o->numbered)
		later_line(command->head.time, command->head.number, "%s", command_line(o->id, o->device, o->process));
}

void names_command(const struct command *command)
{
	const struct known_opening *o = known_opening(command->head.opening);
	if (command->bytes || !command_read(command, o->process_id, o->start))
		tell_command(command);
}

void names_look(void)
{
	struct command command;
	while (command_was_read(&command))
		tell_command(&command);
}

void names_end(void)
{
	struct command command;
	struct timespec moment = { .tv_nsec = 1000000 };
	for (u64 began = now(); command_awaited() && now() - began < LAST_WAIT; nanosleep(&moment, NULL))
		names_look();
	names_look();
	for (struct link *link = known_openings.next; link != &known_openings; link = link->next)
		if (link != &again.opening && command_give_up(LINKED(link, struct known_opening, all)->id, &command))
			tell_command(&command);
}

/* ---- threads */

void names_thread(u32 thread, u32 id, u32 process, u64 start, const char *name)
{
	struct known_thread *t = known_thread(thread);
	t->thread_id = id;
	t->process_id = process;
	t->start = start;
	memcpy(t->name, name, NAME_BYTES);
}

void names_bits(u32 thread, u32 bits)
{
	known_thread(thread)->bits = bits;
}

static void tell_thread(const struct use *use, u64 time)
{
	const struct known_thread *t = use->thread;
	char clean[CLEAN_NAME_BYTES];
	clean_name(clean, t->name, NAME_BYTES);
	side_line(time, "thread %u %u %u pid=%u tid=%u start=%llu%s name=%s", use->who.device, use->who.process,
		  use->who.thread, t->process_id, t->thread_id, (unsigned long long)t->start,
		  t->bits == 32 ? " bits=32" : "", clean);
}

static struct who name_use(u32 opening, u32 thread, u64 time)
{
	struct known_opening *o = known_opening(opening);
	struct known_thread *t = known_thread(thread);
	number_opening(o, time);
	struct who who = { o->device, o->process,
			   free_number(&o->thread_numbers, 0, t->thread_id, t->thread_id != 0) };
	struct use *use = known_add_use(o, t, who);
	open_calls_thread(use);
	tell_thread(use, time);
	return who;
}

struct who names_of(u32 opening, u32 thread, u64 time)
{
	const struct use *use = known_use(opening, thread);
	return use ? use->who : name_use(opening, thread, time);
}

/* Ends the number of a thread for an opening, unless that has ended itself. */
static void end_use(struct use *use, u64 time, u64 after, const char *why)
{
	if (known_has_ended(&use->ending) || known_has_ended(&use->opening->ending))
		return;
	later_line(time, after, "end thread %u %u %u after=%llu why=%s", use->who.device, use->who.process,
		   use->who.thread, (unsigned long long)after, why);
	known_end(&use->ending, after);
}

void names_left(u32 opening, u32 thread, u64 time, u64 after)
{
	struct use *use = known_use(opening, thread);
	if (use)
		end_use(use, time, after, "left");
}

void names_ended(u32 thread, u32 process, int is_last, u64 time, u64 after)
{
	struct known_thread *t = known_thread_if(thread);
	if (t) {
		for (struct link *link = t->uses.next; link != &t->uses; link = link->next)
			end_use(LINKED(link, struct use, of_thread), time, after, "ended");
		known_end(&t->ending, after);
	}
	if (is_last && tell_end)
		tell_end(process, time, after);
	if (is_last)
		later_line(time, after, "end pid %u after=%llu", process, (unsigned long long)after);
}

void names_tell_end(void (*tell)(u32 process, u64 time, u64 after))
{
	tell_end = tell;
}

static int is_called(const struct known_opening *o, const char *name)
{
	return (strlen(name) < NAME_BYTES && !strncmp(o->name, name, NAME_BYTES)) || command_is_called(o->id, name);
}

int names_process(u32 device, u32 number, u32 *process, u64 *start)
{
	for (struct link *link = known_openings.next; link != &known_openings; link = link->next) {
		const struct known_opening *o = LINKED(link, struct known_opening, all);
		if (link == &again.opening || !o->numbered || o->device != device || o->process != number)
			continue;
		*process = o->process_id;
		*start = o->start;
		return 1;
	}
	return 0;
}

int names_are_called(u32 process, const char *name)
{
	for (struct link *link = known_openings.next; link != &known_openings; link = link->next) {
		const struct known_opening *o = LINKED(link, struct known_opening, all);
		if (link != &again.opening && o->process_id == process && is_called(o, name))
			return 1;
	}
	return 0;
}

void names_changed(u32 thread, const char *name, u64 time, u64 after)
{
	struct known_thread *t = known_thread(thread);
	char clean[CLEAN_NAME_BYTES];
	memcpy(t->name, name, NAME_BYTES);
	clean_name(clean, name, NAME_BYTES);
	later_line(time, after, "name pid=%u tid=%u after=%llu name=%s", t->process_id, t->thread_id,
		   (unsigned long long)after, clean);
}

void names_settled(u64 number)
{
	known_forget(number);
}

/* ---- the first lines of a later side list */

static void tell_opening_again(struct known_opening *o)
{
	if (o->list == again.list)
		return;
	if (o->numbered)
		tell_process(o, met_knows_handles(o->device, o->process) ? "before-file" : "in-mid-life");
	else if (o->known && o->met == MET_IN_MID_LIFE)
		tell_met(o, o->told);
}

static void tell_use_again(const struct use *use)
{
	tell_thread(use, now());
	met_tell_calls(use->who);
}

void names_tell_again(u64 number)
{
	names_settled(number - 1);
	again.list++;
	for (u32 device = 0; device < device_count; device++)
		tell_device(device, now());
	link_take_out(&again.opening);
	link_take_out(&again.use);
	link_put_before(known_openings.next, &again.opening);
	link_put_before(known_uses.next, &again.use);
}

/* The next thing of the list, which is passed then; NULL if there is none. */
static struct link *pass(const struct link *list, struct link *passed)
{
	struct link *next = passed->next;
	if (next == list || link_is_alone(passed))
		return NULL;
	link_take_out(passed);
	link_put_before(next->next, passed);
	return next;
}

/* An opening that comes meanwhile is told already, after the first lines. A thread may be told twice. */
int names_tell_on(void)
{
	struct link *link;
	for (; !slice_is_over(); tell_opening_again(LINKED(link, struct known_opening, all)))
		if (!(link = pass(&known_openings, &again.opening)))
			break;
	for (; !slice_is_over(); tell_use_again(LINKED(link, struct use, all)))
		if (!(link = pass(&known_uses, &again.use)))
			return 1;
	return 0;
}
