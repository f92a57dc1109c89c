/* The trace event format: json_events.py says what it is, and names tracks. Here are the events of slices. */
#include <stdlib.h>
#include <string.h>

#include "walk.h"

static const char FILE_BEGIN[] = "{\"displayTimeUnit\":\"ns\",\"traceEvents\":[\n", BETWEEN[] = ",\n";

/* Up to here digits are of whole microseconds, and a time has more of them. */
enum { NANOSECONDS = 3 };

static void add(struct walk *walk, const char *text)
{
	bytes_add(&walk->out, text, strlen(text));
}

static void begin_event(struct walk *walk)
{
	add(walk, walk->out.length || walk->has_written ? BETWEEN : FILE_BEGIN);
}

/* An event that json_events.py has made. */
void walk_line(struct walk *walk, const unsigned char *data, size_t length)
{
	begin_event(walk);
	bytes_add(&walk->out, data, length);
}

static void flush(struct walk *walk)
{
	if (!walk->out.length)
		return;
	walk_write(walk);
	walk->has_written = 1;
}

/* ---- times */

/* A time on the clock of the axis. */
static wide on_clock(const struct walk *walk, wide ns)
{
	size_t low = 0, high = walk->clocks;
	while (high - low > 1) {
		size_t middle = low + (high - low) / 2;
		if (walk->ahead[middle].since <= ns)
			low = middle;
		else
			high = middle;
	}
	return walk->clocks ? ns + walk->ahead[low].by : ns;
}

/* Nanoseconds as microseconds: with zeros, so that one digit is before the point. */
static void make_time(struct walk *walk, wide ns)
{
	struct bytes digits = { 0 };
	wide shown = on_clock(walk, ns);
	walk->at.length = 0;
	if (shown < 0)
		bytes_add(&walk->at, "-", 1);
	bytes_add_decimal(&digits, shown < 0 ? -shown : shown);
	size_t whole = (size_t)NANOSECONDS + (shown >= 0);
	for (size_t zeros = digits.length; zeros < whole; zeros++)
		bytes_add(&walk->at, "0", 1);
	bytes_add(&walk->at, digits.at, digits.length);
	if (!walk->at.is_refused && walk->at.length > NANOSECONDS) {
		char last[NANOSECONDS];
		walk->at.length -= NANOSECONDS;
		memcpy(last, walk->at.at + walk->at.length, sizeof last);
		if (memcmp(last, "000", sizeof last)) {
			bytes_add(&walk->at, ".", 1);
			bytes_add(&walk->at, last, sizeof last);
		}
	}
	free(digits.at);
}

static void add_time(struct walk *walk, wide ns)
{
	if (!walk->has_at || ns != walk->shown_at) {
		walk->has_at = 1;
		walk->shown_at = ns;
		make_time(walk, ns);
	}
	bytes_add(&walk->out, walk->at.at, walk->at.length);
}

static const struct bytes *time_of(struct walk *walk, wide ns)
{
	walk->has_at = 1;
	walk->shown_at = ns;
	make_time(walk, ns);
	return &walk->at;
}

/* ---- slices */

static void add_number(struct walk *walk, enum form form, int64_t value)
{
	if (form == ADDRESS) {
		add(walk, "\"0x");
		bytes_add_hexadecimal(&walk->out, (uint64_t)value);
		add(walk, "\"");
	} else {
		bytes_add_decimal(&walk->out, form == UNSIGNED ? (wide)(uint64_t)value : (wide)value);
	}
}

static void add_argument(struct walk *walk, const struct argument *argument, int64_t value)
{
	if (argument->form >= TO) {
		bytes_add_text(&walk->out, walk_argument(walk, argument->form, value));
		return;
	}
	bytes_add_text(&walk->out, &argument->head);
	add_number(walk, argument->form, value);
}

/* Begins an event of a phase on the track of a thread. */
static void begin_on_track(struct walk *walk, const char *phase, const struct thread *thread, wide ns)
{
	begin_event(walk);
	add(walk, "{\"ph\":\"");
	add(walk, phase);
	add(walk, "\",");
	bytes_add_text(&walk->out, &thread->head);
	add_time(walk, ns);
}

static void add_flow(struct walk *walk, const struct thread *thread, wide ns, int sort, int64_t flow)
{
	int begins = sort == CALL || sort == SENT, is_oneway = sort == SENT || sort == CAME;
	begin_on_track(walk, begins ? "s" : "f", thread, ns);
	add(walk, is_oneway ? ",\"cat\":\"flow\",\"name\":\"oneway\",\"id\":" : ",\"cat\":\"flow\",\"name\":\"call\",\"id\":");
	bytes_add_decimal(&walk->out, flow);
	add(walk, begins ? "}" : ",\"bp\":\"e\"}");
}

static void begin(struct walk *walk, const struct thread *thread, wide ns, int sort, struct called *called,
		  const struct values *values, const int64_t *flow, const int64_t *stack, enum why why)
{
	const char *between = "";
	(void)stack;
	begin_on_track(walk, "B", thread, ns);
	add(walk, ",");
	bytes_add_text(&walk->out, &called->own[sort]);
	for (int at = 0; at < values->count && at < walk->arguments[sort]; at++)
		if (values->has >> at & 1) {
			add(walk, between);
			add_argument(walk, &walk->argument[sort][at], values->number[at]);
			between = ",";
		}
	add(walk, ",");
	bytes_add_text(&walk->out, &called->more);
	if (why)
		bytes_add_text(&walk->out, walk_why(walk, BEGIN_OF_SLICE, why));
	add(walk, "}}");
	if (flow)
		add_flow(walk, thread, ns, sort, *flow);
}

static void end(struct walk *walk, const struct thread *thread, wide ns, int sort, struct called *called, enum why why,
		const int64_t *stack)
{
	(void)sort, (void)called, (void)stack;
	begin_on_track(walk, "E", thread, ns);
	if (why)
		bytes_add_text(&walk->out, walk_why(walk, END_OF_SLICE, why));
	add(walk, "}");
}

/* ---- counters and queues */

static void count(struct walk *walk, uint32_t number, wide ns, const int *changed, int count)
{
	struct process *process = &walk->process[number];
	if (!process->counter) {
		process->counter = calloc(COUNTERS, sizeof *process->counter);
		if (!process->counter) {
			walk->out.is_refused = 1;
			return;
		}
		ASK(walk, ASK_COUNTERS, number);
		for (int at = 0; at < COUNTERS; at++)
			walk_take_text(walk, at, &process->counter[at].head);
	}
	for (int at = 0; at < count; at++) {
		begin_event(walk);
		bytes_add_text(&walk->out, &process->counter[changed[at]].head);
		bytes_add_decimal(&walk->out, process->shown[changed[at]]);
		add(walk, "},\"ts\":");
		add_time(walk, ns);
		add(walk, "}");
	}
}

static void add_queued(struct walk *walk, const char *phase, const struct thread *thread, wide ns, int64_t place,
		       const struct text *name)
{
	begin_on_track(walk, phase, thread, ns);
	add(walk, ",\"cat\":\"queue\",\"id\":");
	bytes_add_decimal(&walk->out, place);
	add(walk, ",");
	bytes_add_text(&walk->out, name);
}

static void queue(struct walk *walk, const struct thread *thread, struct called *called, size_t lane, int64_t place,
		  wide from, wide until, const struct of_queue *more)
{
	(void)lane;
	walk_name_queue(walk, called);
	add_queued(walk, "b", thread, from, place, &called->queue);
	add(walk, ",\"args\":{\"place\":");
	bytes_add_decimal(&walk->out, place);
	add(walk, ",");
	if (more->why) {
		bytes_add_text(&walk->out, walk_why(walk, END_OF_QUEUE, more->why));
	} else {
		add(walk, "\"delivery\":");
		bytes_add_decimal(&walk->out, more->delivery);
		if (more->fits > 1) {
			add(walk, ",\"fits\":");
			bytes_add_decimal(&walk->out, more->fits);
		}
	}
	add(walk, "}}");
	add_queued(walk, "e", thread, until, place, &called->queue);
	add(walk, "}");
}

const struct format json_format = { begin, end, count, queue, flush, time_of };
