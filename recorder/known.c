#include "known.h"
#include "command.h"
#include "descriptors.h"
#include "met.h"
#include "open_calls.h"
#include <stdlib.h>

struct link known_openings = LINK_LIST(known_openings), known_uses = LINK_LIST(known_uses);

static struct table openings, threads;	/* by number: the address */
static struct table uses;		/* by the numbers of both: the address, if it has not ended */
static struct link endings = LINK_LIST(endings);

static void keep(struct table *table, u64 key, u32 second, const void *thing)
{
	*table_make(table, key, second) = (u64)(uintptr_t)thing;
}

static void begin_ending(struct ending *ending, int (*forget)(struct ending *ending))
{
	link_begin(&ending->link);
	ending->forget = forget;
}

/* ---- a thread that calls through an opening */

static int forget_use(struct ending *ending)
{
	struct use *use = LINKED(ending, struct use, ending);
	if (table_thing(&uses, use->opening->id, use->thread->id) == use)
		table_drop(&uses, use->opening->id, use->thread->id);
	met_thread_ended(use->who);
	open_calls_thread_ended(use->who);
	link_take_out(&use->ending.link);
	link_take_out(&use->of_opening);
	link_take_out(&use->of_thread);
	link_take_out(&use->all);
	free(use);
	return 1;
}

struct use *known_use(u32 opening, u32 thread)
{
	struct use *use = table_thing(&uses, opening, thread);
	return use && !known_has_ended(&use->ending) ? use : NULL;
}

struct use *known_add_use(struct known_opening *opening, struct known_thread *thread, struct who who)
{
	struct use *use = allocate(sizeof *use);
	*use = (struct use){ .opening = opening, .thread = thread, .who = who };
	begin_ending(&use->ending, forget_use);
	link_put_before(&known_uses, &use->all);
	link_put_before(&opening->uses, &use->of_opening);
	link_put_before(&thread->uses, &use->of_thread);
	keep(&uses, opening->id, thread->id, use);
	return use;
}

/* ---- an opening */

/* Not while its command line is still to be read. */
static int forget_opening(struct ending *ending)
{
	struct known_opening *o = LINKED(ending, struct known_opening, ending);
	if (command_is_awaited(o->id))
		return 0;
	while (!link_is_alone(&o->uses))
		forget_use(&LINKED(o->uses.next, struct use, of_opening)->ending);
	if (o->numbered) {
		met_process_ended(o->device, o->process);
		open_calls_process_ended(o->device, o->process);
		descriptors_process_ended(o->device, o->process);
	}
	command_forget(o->id);
	table_empty(&o->thread_numbers);
	table_drop(&openings, o->id, 0);
	link_take_out(&o->ending.link);
	link_take_out(&o->all);
	free(o);
	return 1;
}

struct known_opening *known_opening(u32 id)
{
	struct known_opening *o = table_thing(&openings, id, 0);
	if (o)
		return o;
	o = allocate(sizeof *o);
	o->id = id;
	link_begin(&o->uses);
	begin_ending(&o->ending, forget_opening);
	link_put_before(&known_openings, &o->all);
	keep(&openings, id, 0, o);
	return o;
}

/* ---- a thread */

static int forget_thread(struct ending *ending)
{
	struct known_thread *t = LINKED(ending, struct known_thread, ending);
	while (!link_is_alone(&t->uses))
		forget_use(&LINKED(t->uses.next, struct use, of_thread)->ending);
	table_drop(&threads, t->id, 0);
	link_take_out(&t->ending.link);
	free(t);
	return 1;
}

struct known_thread *known_thread_if(u32 id)
{
	return table_thing(&threads, id, 0);
}

struct known_thread *known_thread(u32 id)
{
	struct known_thread *t = known_thread_if(id);
	if (t)
		return t;
	t = allocate(sizeof *t);
	t->id = id;
	link_begin(&t->uses);
	begin_ending(&t->ending, forget_thread);
	keep(&threads, id, 0, t);
	return t;
}

/* ---- what has ended */

void known_end(struct ending *ending, u64 after)
{
	if (known_has_ended(ending))
		return;
	ending->after = after;
	link_put_before(&endings, &ending->link);
}

static void put_off(struct ending *ending, u64 after)
{
	link_take_out(&ending->link);
	known_end(ending, after);
}

/* One that ended before another one may be behind it: it is forgotten a moment later. */
void known_forget(u64 number)
{
	while (!link_is_alone(&endings)) {
		struct ending *first = LINKED(endings.next, struct ending, link);
		if (first->after > number)
			return;
		if (!first->forget(first))
			put_off(first, number + 1);
	}
}
