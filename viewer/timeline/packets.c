/* Perfetto's own format: packets.py says what it is, and tells of tracks and names. Here are the events of slices. */
#include <stdlib.h>

#include "walk.h"

/* The first number that takes more than two bytes, and of how many parts one packet is made: what that has should be less
 * than 512 KB. A short event has four parts. */
enum { PAIRS = 1 << 14, AT_ONCE = 1 << 14, PARTS_OF_EVENT = 4, HEAD = 3, LENGTH = 2 };

/* The keys of fields: what follows is named in packets.py. */
static const unsigned char PACKET = 0x0a;
static const unsigned char BEGIN[] = { 0x48, 1 }, END[] = { 0x48, 2 };
static const unsigned char EVENT_KEY = 0x5a;
static const unsigned char FLOW[] = { 0xf9, 2 }, CORRELATED[] = { 0xa0, 3 };
static const unsigned char ARGUMENT = 0x22, UNSIGNED_KEY = 0x18, SIGNED_KEY = 0x20, POINTER_KEY = 0x38;

/* A number of two bytes, which stands where a length may be put in later. */
static void put_length(unsigned char *at, size_t length)
{
	at[0] = (unsigned char)(length & 127) | 128;
	at[1] = (unsigned char)(length >> 7);
}

static void add_length(struct bytes *bytes, size_t length)
{
	unsigned char made[LENGTH];
	put_length(made, length);
	bytes_add(bytes, made, sizeof made);
}

/* A number as the format has it: one below 0 has 64 bits. */
static void add_number(struct bytes *bytes, wide number)
{
	bytes_add_varint(bytes, (unsigned __int128)(number < 0 ? number + ((wide)1 << 64) : number));
}

static size_t length_of_varint(uint64_t number)
{
	size_t length = 1;
	while (number >>= 7)
		length++;
	return length;
}

/* ---- packets */

static void begin_packet(struct walk *walk, size_t parts)
{
	if (walk->parts >= AT_ONCE)
		walk_write(walk);
	walk->parts += parts;
}

/* A packet that packets.py has made. */
void walk_packet(struct walk *walk, const unsigned char *data, size_t length)
{
	begin_packet(walk, 1);
	bytes_add(&walk->out, data, length);
	walk->takes_more = 0;
}

/* What stands before each event of a time. */
static void go_to(struct walk *walk, wide ns)
{
	if (walk->has_at && ns == walk->shown_at)
		return;
	walk->has_at = 1;
	walk->shown_at = ns;
	walk->at.length = 0;
	bytes_add_text(&walk->at, &walk->event_begin);
	add_number(&walk->at, ns);
	bytes_add(&walk->at, &EVENT_KEY, 1);
}

static void add_event(struct walk *walk, wide ns, const unsigned char *body, size_t length)
{
	go_to(walk, ns);
	if (walk->has_new)
		ASK(walk, ASK_NEW, 0);
	walk->has_new = 0;
	size_t size = length + walk->at.length + LENGTH;
	walk->takes_more = size < PAIRS;
	begin_packet(walk, walk->takes_more ? PARTS_OF_EVENT : 1);
	walk->last_event = walk->out.length;
	bytes_add(&walk->out, &PACKET, 1);
	if (walk->takes_more) {
		add_length(&walk->out, size);
		bytes_add(&walk->out, walk->at.at, walk->at.length);
		add_length(&walk->out, length);
	} else {
		bytes_add_varint(&walk->out, walk->at.length + length_of_varint(length) + length);
		bytes_add(&walk->out, walk->at.at, walk->at.length);
		bytes_add_varint(&walk->out, length);
	}
	bytes_add(&walk->out, body, length);
}

/* Writes the event whose body is there. */
static void write_event(struct walk *walk, wide ns)
{
	add_event(walk, ns, walk->body.at, walk->body.length);
	walk->body.length = 0;
}

/* An event that packets.py has made, at the time of instants. What is new was told before. */
void walk_event(struct walk *walk, const unsigned char *data, size_t length)
{
	walk->has_new = 0;
	add_event(walk, walk->instant_at, data, length);
}

/* Adds the body to the last event, which is the last packet. Returns whether it has room. */
static int add_to_event(struct walk *walk)
{
	size_t length = walk->out.length - walk->last_event - HEAD - walk->at.length - LENGTH + walk->body.length;
	size_t size = length + walk->at.length + LENGTH;
	if (size >= PAIRS || walk->out.is_refused)
		return 0;
	bytes_add(&walk->out, walk->body.at, walk->body.length);
	put_length(walk->out.at + walk->last_event + 1, size);
	put_length(walk->out.at + walk->last_event + HEAD + walk->at.length, length);
	walk->body.length = 0;
	return 1;
}

static void flush(struct walk *walk)
{
	if (walk->parts)
		walk_write(walk);
	walk->takes_more = 0;
}

/* ---- slices */

static void add_argument(struct walk *walk, const struct argument *argument, int64_t value)
{
	if (argument->form >= TO) {
		bytes_add_text(&walk->body, walk_argument(walk, argument->form, value));
		return;
	}
	const unsigned char key = argument->form == ADDRESS ? POINTER_KEY :
		argument->form == SIGNED && value < 0 ? SIGNED_KEY : UNSIGNED_KEY;
	bytes_add(&walk->body, &ARGUMENT, 1);
	bytes_add_varint(&walk->body, argument->head.length + 1 + length_of_varint((uint64_t)value));
	bytes_add_text(&walk->body, &argument->head);
	bytes_add(&walk->body, &key, 1);
	bytes_add_varint(&walk->body, (uint64_t)value);
}

static void add_flow(struct walk *walk, int64_t flow)
{
	uint64_t number = walk->given.recording + (uint64_t)flow;
	unsigned char made[8];
	for (int at = 0; at < 8; at++, number >>= 8)
		made[at] = (unsigned char)number;
	bytes_add(&walk->body, FLOW, sizeof FLOW);
	bytes_add(&walk->body, made, sizeof made);
	bytes_add(&walk->body, CORRELATED, sizeof CORRELATED);
	bytes_add_varint(&walk->body, (uint64_t)flow);
}

/* Stacks are told once, so they are few. */
static void add_stack(struct walk *walk, int64_t stack)
{
	const wide *known = found_at(&walk->stacks, key_of(stack));
	if (known) {
		bytes_add_text(&walk->body, pointer_of(*known));
		return;
	}
	struct text *text = calloc(1, sizeof *text);
	if (!text || !found_put(&walk->stacks, key_of(stack), (uintptr_t)text)) {
		free(text);
		walk->body.is_refused = 1;
		return;
	}
	bytes_add_text(&walk->body, walk_text(walk, text, ASK_STACK, stack, 0));
}

static void end_on_track(struct walk *walk, const struct thread *thread, wide ns)
{
	bytes_add(&walk->body, END, sizeof END);
	bytes_add_text(&walk->body, &thread->head);
	write_event(walk, ns);
}

/* With the names of Android: a slice that says what is called. */
static void tell_called(struct walk *walk, const struct thread *thread, wide ns, int sort, struct called *called)
{
	const struct text *named = &called->aidl[sort];
	if (!named->at) {
		const int64_t *key = called->key.number;
		ASK(walk, ASK_AIDL, key[0], key[1], key[2], key[3], sort);
		walk_take_text(walk, 0, &called->aidl[sort]);
	}
	bytes_add(&walk->body, BEGIN, sizeof BEGIN);
	bytes_add_text(&walk->body, &thread->head);
	bytes_add_text(&walk->body, named);
	write_event(walk, ns);
}

static void begin_slice(struct walk *walk, const struct thread *thread, wide ns, int sort, struct called *called,
			const struct values *values, const int64_t *flow, const int64_t *stack, enum why why)
{
	bytes_add(&walk->body, BEGIN, sizeof BEGIN);
	bytes_add_text(&walk->body, &thread->head);
	bytes_add_text(&walk->body, &called->own[sort]);
	for (int at = 0; at < values->count && at < walk->arguments[sort]; at++)
		if (values->has >> at & 1)
			add_argument(walk, &walk->argument[sort][at], values->number[at]);
	if (flow)
		add_flow(walk, *flow);
	if (stack)
		add_stack(walk, *stack);
	if (why)
		bytes_add_text(&walk->body, walk_why(walk, BEGIN_OF_SLICE, why));
	write_event(walk, ns);
}

static int is_around(int sort)
{
	return sort == CALL || sort == SENT;
}

/* With the names of Android what came takes no time, and the next slice of its track says what it is for. */
static void begin(struct walk *walk, const struct thread *thread, wide ns, int sort, struct called *called,
		  const struct values *values, const int64_t *flow, const int64_t *stack, enum why why)
{
	int tells = walk->given.is_android && (called->has_interface || sort == CAME);
	if (tells && is_around(sort))
		tell_called(walk, thread, ns, sort, called);
	begin_slice(walk, thread, ns, sort, called, values, flow, stack, why);
	if (walk->given.is_android && sort == CAME)
		end_on_track(walk, thread, ns);
	if (tells && !is_around(sort))
		tell_called(walk, thread, ns, sort, called);
}

static void end(struct walk *walk, const struct thread *thread, wide ns, int sort, struct called *called, enum why why,
		const int64_t *stack)
{
	int has_two = walk->given.is_android && sort != CAME && called->has_interface;
	if (has_two && !is_around(sort))
		end_on_track(walk, thread, ns);
	bytes_add(&walk->body, END, sizeof END);
	bytes_add_text(&walk->body, &thread->head);
	if (why)
		bytes_add_text(&walk->body, walk_why(walk, END_OF_SLICE, why));
	if (stack)
		add_stack(walk, *stack);
	write_event(walk, ns);
	if (has_two && is_around(sort))
		end_on_track(walk, thread, ns);
}

/* ---- counters and queues */

static struct counter *counters_of(struct walk *walk, uint32_t number)
{
	struct process *process = &walk->process[number];
	if (process->counter)
		return process->counter;
	process->counter = calloc(COUNTERS, sizeof *process->counter);
	if (!process->counter)
		return NULL;
	ASK(walk, ASK_COUNTERS, number);
	for (int at = 0; at < COUNTERS; at++) {
		walk_take_text(walk, 3 * at, &process->counter[at].head);
		walk_take_text(walk, 3 * at + 1, &process->counter[at].extra);
		walk_take_text(walk, 3 * at + 2, &process->counter[at].zero);
	}
	return process->counter;
}

/* Extra counters of an event. Those of 0 come last: after one of them Perfetto 56 takes all others for 0. */
static void add_extras(struct walk *walk, const struct counter *counters, const wide *values, const int *changed,
		       int count)
{
	for (int at = 0; at < count; at++)
		if (values[changed[at]]) {
			bytes_add_text(&walk->body, &counters[changed[at]].extra);
			add_number(&walk->body, values[changed[at]]);
		}
	for (int at = 0; at < count; at++)
		if (!values[changed[at]])
			bytes_add_text(&walk->body, &counters[changed[at]].zero);
}

/*
 * The last event, if it is of this time, has all counters that were changed, or else one of their own. An event has
 * those of one process, since zeros come last in it.
 */
static void count(struct walk *walk, uint32_t process, wide ns, const int *changed, int number)
{
	const struct counter *counters = counters_of(walk, process);
	const wide *values = walk->process[process].shown;
	if (!counters) {
		walk->body.is_refused = 1;
		return;
	}
	add_extras(walk, counters, values, changed, number);
	int is_at_event = walk->takes_more && walk->has_at && ns == walk->shown_at;
	if (!is_at_event || !add_to_event(walk)) {
		walk->body.length = 0;
		bytes_add_text(&walk->body, &counters[changed[0]].head);
		add_number(&walk->body, values[changed[0]]);
		add_extras(walk, counters, values, changed + 1, number - 1);
		write_event(walk, ns);
	}
	walk->takes_more = 0;
}

/* The track of a lane of a queue. They are told in the order of their numbers. */
static const struct text *track_of_queue(struct walk *walk, uint32_t number, size_t lane)
{
	static const struct text none;
	struct process *process = &walk->process[number];
	if (lane > process->tracks)
		return &none;
	if (lane == process->tracks) {
		struct text *queue = with_room(process->queue, process->tracks, &process->tracks_room, sizeof *queue);
		if (!queue) {
			walk->body.is_refused = 1;
			return &none;
		}
		process->queue = queue;
		queue[process->tracks++] = (struct text){ 0 };
	}
	return walk_text(walk, &process->queue[lane], ASK_QUEUE_TRACK, number, (int64_t)lane);
}

static void queue(struct walk *walk, const struct thread *thread, struct called *called, size_t lane, int64_t place,
		  wide from, wide until, const struct of_queue *more)
{
	/* The names of arguments are those of a oneway transaction that is sent: each format has them. */
	const struct argument *known = walk->argument[SENT];
	const struct text *track = track_of_queue(walk, thread->process, lane);
	walk_name_queue(walk, called);
	bytes_add(&walk->body, BEGIN, sizeof BEGIN);
	bytes_add_text(&walk->body, track);
	bytes_add_text(&walk->body, &called->queue);
	add_argument(walk, &known[0], place);
	if (more->why) {
		bytes_add_text(&walk->body, walk_why(walk, END_OF_QUEUE, more->why));
	} else {
		add_argument(walk, &known[5], more->delivery);
		if (more->fits > 1)
			add_argument(walk, &known[6], more->fits);
	}
	write_event(walk, from);
	bytes_add(&walk->body, END, sizeof END);
	bytes_add_text(&walk->body, track);
	write_event(walk, until);
}

const struct format packets_format = { begin, end, count, queue, flush, NULL };
