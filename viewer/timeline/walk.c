/*
 * The walk through a capture by which a timeline is made, record by record. What is kept meanwhile is what is open: calls,
 * buffers of oneway transactions, references that are held, and when what has not come yet was sent. docs/PAGE.md says
 * what the events mean.
 */
#include <stdlib.h>
#include <string.h>

#include "walk.h"

enum { TF_ONE_WAY = 1, VERDICTS = 5 };

/* The counters of buffers, by their bits. */
enum { HELD = 1 << BUFFERS | 1 << BYTES, ONEWAY_HELD = HELD | 1 << ASYNC };

static void refuse(struct walk *walk, enum status status)
{
	if (walk->status == GOES_ON)
		walk->status = status;
}

static void need(struct walk *walk, int is_there)
{
	if (!is_there)
		refuse(walk, NO_MEMORY);
}

static wide later_of(wide one, wide other)
{
	return one > other ? one : other;
}

/* A number of a row; NULL if it is not there. */
static const int64_t *maybe(const struct row *row, int column)
{
	return has(row, column) ? &row->number[column] : NULL;
}

/* ---- what is asked */

const struct bytes *walk_time(struct walk *walk)
{
	return walk->format->time_of ? walk->format->time_of(walk, walk->instant_at) : NULL;
}

int walk_ask(struct walk *walk, enum ask what, const int64_t *numbers, size_t count)
{
	walk->answer.length = 0;
	walk->texts = 0;
	if (walk->status != GOES_ON)
		return 0;
	const struct bytes *at = what == ASK_RECORD ? walk_time(walk) : NULL;
	orders_tell(what, numbers, count, at ? at->at : NULL, at ? at->length : 0);
	int bits = orders_follow(walk);
	walk->has_new |= bits & HAS_NEW;
	return bits;
}

void walk_add_answer(struct walk *walk, const unsigned char *data, size_t length)
{
	if (walk->texts == MOST_TEXTS)
		return;
	bytes_add(&walk->answer, data, length);
	walk->ends[walk->texts++] = walk->answer.length;
}

static int set_text(struct text *text, const unsigned char *data, size_t length)
{
	free(text->at);
	*text = (struct text){ malloc(length + 1), length };
	if (!text->at) {
		text->length = 0;
		return 0;
	}
	memcpy(text->at, length ? data : (const unsigned char *)"", length);
	return 1;
}

void walk_take_text(struct walk *walk, int number, struct text *text)
{
	if (number >= walk->texts || walk->answer.is_refused) {
		need(walk, !walk->answer.is_refused);
		return;
	}
	size_t begin = number ? walk->ends[number - 1] : 0;
	need(walk, set_text(text, walk->answer.at + begin, walk->ends[number] - begin));
}

const struct text *walk_text(struct walk *walk, struct text *text, enum ask what, int64_t number, int64_t other)
{
	if (!text->at) {
		ASK(walk, what, number, other);
		walk_take_text(walk, 0, text);
	}
	return text;
}

const struct text *walk_why(struct walk *walk, int use, enum why why)
{
	return walk_text(walk, &walk->why[use][why], ASK_WHY, use, why);
}

const struct text *walk_argument(struct walk *walk, enum form form, int64_t value)
{
	if (form == VERDICT)
		return walk_text(walk, &walk->verdict[value], ASK_VERDICT, value, 0);
	if (form == FROM)
		return walk_text(walk, &walk->process[value].from, ASK_FROM, value, 0);
	return walk_text(walk, &walk->process[value / 2].to[value % 2], ASK_TO, value / 2, value % 2);
}

void walk_name_queue(struct walk *walk, struct called *called)
{
	const int64_t *key = called->key.number;
	if (called->queue.at)
		return;
	ASK(walk, ASK_QUEUE_NAME, key[0], key[1], key[2], key[3]);
	walk_take_text(walk, 0, &called->queue);
}

void walk_write(struct walk *walk)
{
	need(walk, !walk->out.is_refused && !walk->body.is_refused && !walk->at.is_refused);
	if (walk->status == GOES_ON)
		orders_tell(TELL_WRITTEN, NULL, 0, walk->out.at, walk->out.length);
	walk->out.length = 0;
	walk->parts = 0;
}

/* ---- what is called */

static void free_texts(struct text *text, int count)
{
	for (int at = 0; at < count; at++)
		free(text[at].at);
}

static void give_back(struct called *called)
{
	if (!called || --called->uses)
		return;
	free_texts(called->own, SORTS);
	free_texts(called->aidl, SORTS);
	free_texts(&called->more, 1);
	free_texts(&called->queue, 1);
	free(called);
}

static void forget_called(struct walk *walk)
{
	struct found *remembered = &walk->remembered;
	for (size_t at = 0; at < remembered->places; at++)
		if (remembered->place[at].is_taken)
			give_back(pointer_of(remembered->place[at].value));
	found_clear(remembered);
}

static struct called *ask_for_called(struct walk *walk, const struct key *key)
{
	struct called *called = calloc(1, sizeof *called);
	if (!called) {
		refuse(walk, NO_MEMORY);
		return NULL;
	}
	called->key = *key;
	called->uses = 1;
	called->has_interface = (walk_ask(walk, ASK_CALLED, key->number, 4) & HAS_INTERFACE) != 0;
	for (int sort = 0; sort < SORTS; sort++)
		walk_take_text(walk, sort, &called->own[sort]);
	if (walk->texts > SORTS)
		walk_take_text(walk, SORTS, &called->more);
	return called;
}

/* What the format has made of what is called; NULL if something went wrong. Of so much it is remembered. */
static struct called *called_of(struct walk *walk, int64_t code, int64_t upid, int64_t ptr, const int64_t *interface)
{
	struct key key = { { code, upid, ptr, interface ? *interface : NO_INTERFACE } };
	if (!interface && !found_at(&walk->named, (struct key){ { code, upid, ptr, NAMED_CODE } })
	    && !found_at(&walk->named, (struct key){ { 0, upid, ptr, NAMED_OBJECT } }))
		key = (struct key){ { code, 0, 0, ONLY_CODE } };
	const wide *known = found_at(&walk->remembered, key);
	if (known)
		return pointer_of(*known);
	if (walk->remembered.taken >= (uint64_t)walk->given.remembered)
		forget_called(walk);
	struct called *called = ask_for_called(walk, &key);
	if (called && !found_put(&walk->remembered, key, (uintptr_t)called)) {
		give_back(called);
		refuse(walk, NO_MEMORY);
		return NULL;
	}
	return called;
}

/* ---- the axis */

static int is_past(const struct walk *walk, int64_t seq)
{
	return walk->given.has_last && (uint64_t)seq > (uint64_t)walk->given.last;
}

static int is_in_window(const struct walk *walk, const int64_t *seq)
{
	return seq && (!walk->given.has_first || (uint64_t)*seq >= (uint64_t)walk->given.first) && !is_past(walk, *seq);
}

/* Goes to a frame of a thread. On a track times never go back. */
static void go_to_frame(struct walk *walk, int64_t seq, const int64_t *ts, struct lane *lane)
{
	wide ns = walk->given.is_timed ? (ts ? *ts : walk->ns) : 1000 * ((wide)(uint64_t)seq - (uint64_t)walk->given.base);
	walk->count[UNTIMED] += walk->given.is_timed && !ts;
	if (ns < lane->latest) {
		walk->count[RAISED]++;
		ns = lane->latest;
	}
	walk->ns = lane->latest = ns;
}

/* A time on a track, no earlier than the last one there. */
static wide on_track(struct lane *lane, wide ns)
{
	lane->latest = later_of(lane->latest, ns);
	return lane->latest;
}

/* ---- counters */

static void touch(struct walk *walk, uint32_t number, int counters)
{
	struct process *process = &walk->process[number];
	if (!process->touched) {
		uint32_t *touched = with_room(walk->touched, walk->touched_count, &walk->touched_room, sizeof *touched);
		if (!touched) {
			refuse(walk, NO_MEMORY);
			return;
		}
		walk->touched = touched;
		touched[walk->touched_count++] = number;
	}
	process->touched |= counters;
}

static void change(struct walk *walk, uint32_t number, int counter, int by)
{
	touch(walk, number, 1 << counter);
	walk->process[number].now[counter] += by;
}

static void count_process(struct walk *walk, uint32_t number, wide ns)
{
	struct process *process = &walk->process[number];
	int changed[COUNTERS], count = 0;
	for (int at = 0; at < COUNTERS; at++)
		if (process->touched >> at & 1 && process->now[at] != process->shown[at]) {
			process->shown[at] = process->now[at];
			changed[count++] = at;
		}
	if (!count)
		return;
	process->latest = later_of(ns, process->latest);
	walk->format->count(walk, number, process->latest, changed, count);
	walk->count[COUNTER_EVENTS] += count;
}

/* Writes the counters that were changed. */
static void count_touched(struct walk *walk, wide ns)
{
	for (size_t at = 0; at < walk->touched_count; at++) {
		struct process *process = &walk->process[walk->touched[at]];
		if (walk->is_live && process->is_shown)
			count_process(walk, walk->touched[at], ns);
		process->touched = 0;
	}
	walk->touched_count = 0;
}

/* A buffer that a process gets, or frees. */
static void hold(struct walk *walk, uint32_t number, uint64_t size, int oneway, int by)
{
	wide *now = walk->process[number].now;
	touch(walk, number, oneway ? ONEWAY_HELD : HELD);
	now[BUFFERS] += by;
	now[BYTES] += by * (wide)size;
	if (oneway)
		now[ASYNC] += by * (wide)size;
}

/* A strong reference that is taken or let go. The driver ignores it if one is let go that is not held. */
static void refer(struct walk *walk, uint32_t number, int64_t handle, int takes)
{
	struct found *strong = &walk->process[number].strong;
	wide held = 0;
	found_take(strong, key_of(handle), &held);
	int by = takes ? 1 : held ? -1 : 0;
	change(walk, number, REFERENCES, by);
	held += by;
	if (held)
		need(walk, found_put(strong, key_of(handle), held));
}

/* ---- what a thread is in */

static void begin(struct walk *walk, struct open *entry, const struct values *values, wide ns, const int64_t *flow,
		  const int64_t *stack, enum why why)
{
	const struct thread *thread = &walk->thread[entry->thread];
	if (!thread->is_shown || !values)
		return;
	walk->format->begin(walk, thread, ns, entry->sort, entry->called, values, flow, stack, why);
	walk->count[SLICES]++;
}

static struct values *copy_of(struct walk *walk, const struct values *values)
{
	struct values *copy = malloc(sizeof *copy);
	need(walk, copy != NULL);
	if (copy)
		*copy = *values;
	return copy;
}

static void push(struct walk *walk, struct open entry, const struct values *values, const int64_t *flow,
		 const int64_t *stack)
{
	struct thread *thread = &walk->thread[entry.thread];
	struct lane *lane = &walk->lane[thread->lane];
	struct open *room = with_room(lane->stack, lane->depth, &lane->room, sizeof *room);
	if (!room) {
		refuse(walk, NO_MEMORY);
		return;
	}
	lane->stack = room;
	if (walk->is_live)
		begin(walk, &entry, values, walk->ns, flow, stack, NO_WHY);
	else
		entry.values = copy_of(walk, values);
	entry.called->uses++;
	lane->stack[lane->depth++] = entry;
	thread->entries++;
	if (entry.sort == CALL) {
		change(walk, thread->process, CALLS, 1);
		return;
	}
	if (entry.sort == CAME)
		need(walk, found_put(&walk->oneways, key_of(entry.place), 0));
	if (++thread->serving == 1)
		change(walk, thread->process, BUSY, 1);
}

static void pop_one(struct walk *walk, struct lane *lane, enum why why, const wide *ns, const int64_t *stack)
{
	struct open entry = lane->stack[--lane->depth];
	struct thread *thread = &walk->thread[entry.thread];
	thread->entries--;
	if (entry.sort == CALL) {
		change(walk, thread->process, CALLS, -1);
	} else {
		if (!--thread->serving)
			change(walk, thread->process, BUSY, -1);
		if (entry.sort == CAME) {
			found_take(&walk->freed, key_of(entry.place), NULL);
			found_take(&walk->oneways, key_of(entry.place), NULL);
		}
	}
	if (walk->is_live && thread->is_shown)
		walk->format->end(walk, thread, ns ? on_track(lane, *ns) : walk->ns, entry.sort, entry.called, why, stack);
	free(entry.values);
	give_back(entry.called);
}

/* Ends what a thread is in, and what is then freed below it. */
static void pop(struct walk *walk, struct lane *lane, enum why why, const wide *ns, const int64_t *stack)
{
	pop_one(walk, lane, why, ns, stack);
	while (lane->depth && found_at(&walk->freed, key_of(lane->stack[lane->depth - 1].place)))
		pop_one(walk, lane, NO_WHY, NULL, NULL);
}

/*
 * Whether a record closes a call of its thread: the innermost one of its device. What is within that call ends: oneway
 * transactions, and calls on other devices of which the end is missing.
 */
static int closes(struct walk *walk, struct lane *lane, int64_t place)
{
	size_t depth = lane->depth;
	while (depth && !(lane->stack[depth - 1].has_closer && lane->stack[depth - 1].closer == place))
		depth--;
	if (!depth)
		return 0;
	while (lane->depth > depth)
		pop(walk, lane, AROUND, NULL, NULL);
	return 1;
}

/* Ends all that a thread is in, and what is within that. */
static void leave(struct walk *walk, uint32_t number, enum why why, wide ns)
{
	struct thread *thread = &walk->thread[number];
	struct lane *lane = &walk->lane[thread->lane];
	while (thread->entries && lane->depth)
		pop(walk, lane, lane->stack[lane->depth - 1].thread == number ? why : AROUND, &ns, NULL);
}

/* ---- queues */

static int is_before(const struct queued *one, const struct queued *other)
{
	return one->end < other->end || (one->end == other->end && one->lane < other->lane);
}

static void swap(struct queued *one, struct queued *other)
{
	struct queued kept = *one;
	*one = *other;
	*other = kept;
}

/* The first one of `queued` has got another end: puts it where it belongs. The parent of `at` is at (at - 1) / 2. */
static void sink(struct queued *queued, size_t count)
{
	for (size_t at = 0, least = 0;; at = least) {
		for (size_t child = 2 * at + 1; child < 2 * at + 3 && child < count; child++)
			if (is_before(&queued[child], &queued[least]))
				least = child;
		if (least == at)
			return;
		swap(&queued[at], &queued[least]);
	}
}

static void rise(struct queued *queued, size_t at)
{
	for (; at && is_before(&queued[at], &queued[(at - 1) / 2]); at = (at - 1) / 2)
		swap(&queued[at], &queued[(at - 1) / 2]);
}

/* A lane of the queue of a process that is free for a slice of this time. */
static size_t lane_of_queue(struct walk *walk, struct process *process, wide from, wide until)
{
	if (process->queues && process->queued[0].end < from) {
		size_t lane = process->queued[0].lane;
		process->queued[0].end = until;
		sink(process->queued, process->queues);
		return lane;
	}
	struct queued *queued = with_room(process->queued, process->queues, &process->queues_room, sizeof *queued);
	if (!queued) {
		refuse(walk, NO_MEMORY);
		return 0;
	}
	process->queued = queued;
	size_t lane = process->queues++;
	queued[lane] = (struct queued){ until, lane };
	rise(queued, lane);
	return lane;
}

/* How long a oneway transaction waited, in the process that gets it. */
static void queue(struct walk *walk, uint32_t number, struct called *called, int64_t place, wide from, wide until,
		  struct of_queue more)
{
	const struct thread *thread = &walk->thread[number];
	if (!thread->is_shown)
		return;
	until = later_of(from, until);
	size_t lane = lane_of_queue(walk, &walk->process[thread->process], from, until);
	walk->format->queue(walk, thread, called, lane, place, from, until, &more);
	walk->count[QUEUE_SLICES]++;
}

/* ---- rows */

/* Whether the flow between a record of a thread here and another one is shown, if their pair is certain. */
static int is_shown_pair(const struct walk *walk, const struct thread *thread, const int64_t *other, const int64_t *seq)
{
	return walk->is_live && other && thread->is_shown && walk->thread[*other].is_shown && is_in_window(walk, seq);
}

/* Whether a row has a number of a thread, or of a process, that is none. */
static int is_strange(const struct row *row, int column, int64_t most)
{
	return has(row, column) && (row->number[column] < 1 || row->number[column] > most);
}

static void add_value(struct values *values, const int64_t *number)
{
	values->number[values->count] = number ? *number : 0;
	values->has |= (uint32_t)(number != NULL) << values->count++;
}

static void add_verdict(struct values *values, const struct row *row, int verdict, int closer)
{
	add_value(values, maybe(row, verdict));
	add_value(values, maybe(row, closer));
}

/* A oneway transaction that is not delivered in what is shown. */
static void wait(struct walk *walk, const struct row *row, struct called *called)
{
	const int64_t *delivery = maybe(row, SEND_DELIVERY), *receiver = maybe(row, SEND_RECEIVER);
	const int64_t *node = maybe(row, SEND_NODE);
	if (delivery && receiver) {
		queue(walk, (uint32_t)*receiver, called, row->number[PLACE], walk->ns, walk->end,
		      (struct of_queue){ .why = AT_END });
	} else if (!delivery && row->number[SEND_NODE_CERTAIN] && node && walk->process[*node].first_thread) {
		const struct process *process = &walk->process[*node];
		wide until = process->has_ended && process->ended < walk->end ? process->ended : walk->end;
		queue(walk, process->first_thread, called, row->number[PLACE], walk->ns, until,
		      (struct of_queue){ .why = NEVER_CAME });
	}
}

static struct called *called_by(struct walk *walk, const struct row *row, const struct thread *thread)
{
	const int64_t *node = maybe(row, SEND_NODE), *number = row->number;
	return called_of(walk, number[SEND_CODE], node ? *node : -(int64_t)thread->process,
			 number[node ? SEND_PTR : SEND_HANDLE], maybe(row, SEND_INTERFACE));
}

/* What a slice of a send says of it. */
static struct values values_of_send(const struct row *row)
{
	int certain = row->number[SEND_CERTAIN] != 0;
	const int64_t *node = maybe(row, SEND_NODE), *number = row->number;
	int64_t to = node ? 2 * *node + (number[SEND_NODE_CERTAIN] != 0) : 0;
	struct values values = { .count = 0 };
	add_value(&values, &number[PLACE]);
	add_value(&values, &number[SEQ]);
	add_value(&values, &number[SEND_HANDLE]);
	add_value(&values, node ? &to : NULL);
	add_value(&values, &number[SEND_SIZE]);
	add_value(&values, certain ? maybe(row, SEND_DELIVERY) : NULL);
	add_value(&values, certain && number[SEND_FITS] > 1 ? &number[SEND_FITS] : NULL);
	return values;
}

/* A oneway send takes no time here: what the driver says of it is read later, maybe after other things. */
static void send_oneway(struct walk *walk, const struct row *row, struct open *entry, const struct values *values,
			const int64_t *flow)
{
	begin(walk, entry, values, walk->ns, flow, maybe(row, SEND_STACK), NO_WHY);
	if (walk->thread[entry->thread].is_shown)
		walk->format->end(walk, &walk->thread[entry->thread], walk->ns, SENT, entry->called, NO_WHY, NULL);
	int is_shown_to_come = has(row, SEND_DELIVERY) &&
		!(row->number[SEND_CERTAIN] && !is_in_window(walk, maybe(row, SEND_RECEIVER_SEQ)));
	if (!has(row, SEND_REFUSED) && !is_shown_to_come)
		wait(walk, row, entry->called);
}

static void handle_send(struct walk *walk, uint32_t utid, const struct row *row)
{
	const struct thread *thread = &walk->thread[utid];
	struct lane *lane = &walk->lane[thread->lane];
	int64_t place = row->number[PLACE];
	int certain = row->number[SEND_CERTAIN] != 0;
	walk->count[PAIRS_WITHOUT_FLOW] += has(row, SEND_DELIVERY) && !certain && walk->is_live;
	if (!has(row, SEND_HANDLE)) {
		if (closes(walk, lane, place))
			pop(walk, lane, NO_WHY, NULL, maybe(row, SEND_STACK));
		return;
	}
	if (is_strange(row, SEND_RECEIVER, walk->given.threads) || is_strange(row, SEND_NODE, walk->given.processes)
	    || (uint64_t)row->number[SEND_VERDICT] >= VERDICTS) {
		refuse(walk, NO_ROWS);
		return;
	}
	int has_flow = certain && is_shown_pair(walk, thread, maybe(row, SEND_RECEIVER), maybe(row, SEND_RECEIVER_SEQ));
	struct called *called = called_by(walk, row, thread);
	if (!called)
		return;
	if (certain)
		need(walk, found_put(&walk->sent, key_of(place), walk->ns));
	struct values values = values_of_send(row);
	struct open entry = { place, row->number[SEND_CLOSER], has(row, SEND_CLOSER), CALL, utid, called, NULL };
	if (has(row, SEND_VERDICT)) {
		add_verdict(&values, row, SEND_VERDICT, SEND_CLOSER);
		push(walk, entry, &values, has_flow ? &place : NULL, maybe(row, SEND_STACK));
	} else if (walk->is_live) {
		add_value(&values, maybe(row, SEND_REFUSED));
		entry.sort = SENT;
		send_oneway(walk, row, &entry, &values, has_flow ? &place : NULL);
	}
}

/* What a slice of a delivery says of it. */
static struct values values_of_delivery(const struct walk *walk, const struct row *row)
{
	int certain = row->number[CAME_CERTAIN] != 0;
	const int64_t *number = row->number;
	int64_t from = certain ? walk->thread[number[CAME_SENDER]].process : 0;
	struct values values = { .count = 0 };
	add_value(&values, &number[PLACE]);
	add_value(&values, &number[SEQ]);
	add_value(&values, maybe(row, CAME_PTR));
	add_value(&values, maybe(row, CAME_COOKIE));
	add_value(&values, maybe(row, CAME_SENDER_PID));
	add_value(&values, &number[CAME_SIZE]);
	add_value(&values, certain ? &from : NULL);
	add_value(&values, certain ? &number[CAME_SEND] : NULL);
	add_value(&values, certain && number[CAME_FITS] > 1 ? &number[CAME_FITS] : NULL);
	return values;
}

/*
 * Puts a delivery no earlier than its send, and returns whether that was shown, and when. The recorder takes times on
 * several processors.
 */
static int came_after(struct walk *walk, struct lane *lane, int64_t send, wide *sent)
{
	if (!found_take(&walk->sent, key_of(send), sent))
		return 0;
	if (*sent > walk->ns) {
		walk->ns = lane->latest = *sent;
		walk->count[EARLY_DELIVERIES]++;
	}
	return 1;
}

/* Keeps that a record frees a delivery, behind those that it frees already. */
static void keep_freed(struct walk *walk, uint32_t utid, const struct row *row, uint64_t size, int oneway)
{
	struct freed *freed = malloc(sizeof *freed);
	if (!freed) {
		refuse(walk, NO_MEMORY);
		return;
	}
	*freed = (struct freed){ utid, oneway, row->number[PLACE], size, NULL };
	wide *last = found_at(&walk->frees, key_of(row->number[CAME_FREED_BY]));
	struct freed *before = last ? pointer_of(*last) : NULL;
	freed->next = before ? before->next : freed;	/* a ring: the last one knows the first one */
	if (before) {
		before->next = freed;
		*last = (uintptr_t)freed;
	} else if (!found_put(&walk->frees, key_of(row->number[CAME_FREED_BY]), (uintptr_t)freed)) {
		free(freed);
		refuse(walk, NO_MEMORY);
	}
}

static void handle_delivery(struct walk *walk, uint32_t utid, const struct row *row)
{
	const struct thread *thread = &walk->thread[utid];
	struct lane *lane = &walk->lane[thread->lane];
	const int64_t *number = row->number;
	int64_t place = number[PLACE];
	int is_reply = number[CAME_KIND] == walk->given.reply, oneway = !is_reply && number[CAME_FLAGS] & TF_ONE_WAY;
	int certain = number[CAME_CERTAIN] != 0;
	uint64_t size = (uint64_t)number[CAME_SIZE];
	hold(walk, thread->process, size, oneway, 1);
	if (has(row, CAME_FREED_BY))
		keep_freed(walk, utid, row, size, oneway);
	if (is_reply) {
		if (closes(walk, lane, place))
			pop(walk, lane, NO_WHY, NULL, NULL);
		return;
	}
	if (is_strange(row, CAME_SENDER, walk->given.threads) || (certain && !has(row, CAME_SENDER))
	    || (uint64_t)number[CAME_VERDICT] >= VERDICTS) {
		refuse(walk, NO_ROWS);
		return;
	}
	wide sent = 0;
	int was_sent = certain && came_after(walk, lane, number[CAME_SEND], &sent);
	if (lane->depth && lane->stack[lane->depth - 1].sort == CAME)
		pop(walk, lane, NO_WHY, NULL, NULL);
	const int64_t *flow = certain && is_shown_pair(walk, thread, &number[CAME_SENDER], maybe(row, CAME_SENDER_SEQ)) ?
		&number[CAME_SEND] : NULL;
	struct called *called = called_of(walk, number[CAME_CODE], thread->process, number[CAME_PTR],
					  maybe(row, CAME_INTERFACE));
	if (!called)
		return;
	struct values values = values_of_delivery(walk, row);
	struct open entry = { place, number[CAME_CLOSER], has(row, CAME_CLOSER), SERVED, utid, called, NULL };
	if (oneway) {
		if (was_sent && walk->is_live)
			queue(walk, utid, called, number[CAME_SEND], later_of(walk->entered, sent), walk->ns,
			      (struct of_queue){ NO_WHY, place, number[CAME_FITS] });
		entry.sort = CAME;
		entry.has_closer = 0;
	} else {
		add_verdict(&values, row, CAME_VERDICT, CAME_CLOSER);
	}
	push(walk, entry, &values, flow, NULL);
	walk->count[FLOWS] += flow != NULL;
}

/* The end of a delivery. */
static void end_delivery(struct walk *walk, const struct freed *freed)
{
	const struct thread *thread = &walk->thread[freed->thread];
	struct lane *lane = &walk->lane[thread->lane];
	hold(walk, thread->process, freed->size, freed->oneway, -1);
	if (!found_at(&walk->oneways, key_of(freed->place)))
		return;
	wide ns = walk->ns;
	if (lane->depth && lane->stack[lane->depth - 1].place == freed->place)
		pop(walk, lane, NO_WHY, &ns, NULL);
	else
		need(walk, found_put(&walk->freed, key_of(freed->place), 0));
}

static void free_buffers(struct walk *walk, int64_t place)
{
	wide last;
	if (!found_take(&walk->frees, key_of(place), &last))
		return;
	struct freed *end = pointer_of(last), *freed = end->next;
	for (struct freed *next; ; freed = next) {
		int is_last = freed == end;
		next = freed->next;
		end_delivery(walk, freed);
		free(freed);
		if (is_last)
			return;
	}
}

/* An instant of a record. */
static void tell_record(struct walk *walk, uint32_t utid, const struct row *row)
{
	const int64_t *number = row->number;
	if (!walk->is_live || !walk->thread[utid].is_shown)
		return;
	walk->instant_at = walk->ns;
	ASK(walk, ASK_RECORD, number[RECORD_KIND], utid, number[PLACE], number[RECORD_COOKIE], number[RECORD_VALUE],
	    number[RECORD_REFUSED], (int64_t)row->has >> RECORD_COOKIE);
}

/* A record that is neither a send nor a delivery. */
static void handle_record(struct walk *walk, uint32_t utid, const struct row *row)
{
	const struct given *given = &walk->given;
	struct lane *lane = &walk->lane[walk->thread[utid].lane];
	int64_t kind = row->number[RECORD_KIND], place = row->number[PLACE];
	if (kind == given->free_buffer) {
		free_buffers(walk, place);
		return;
	}
	if (has(row, RECORD_HANDLE)) {
		refer(walk, walk->thread[utid].process, row->number[RECORD_HANDLE], kind == given->acquire);
		return;
	}
	tell_record(walk, utid, row);
	if (kind == given->dead_binder || kind == given->frozen_binder || kind == given->spam_suspect)
		return;
	if (closes(walk, lane, place))
		pop(walk, lane, NO_WHY, NULL, NULL);
}

/* ---- frame after frame */

/* Instants come last in their frame. */
static void end_instants(struct walk *walk)
{
	if (walk->has_instants)
		ASK(walk, ASK_END_FRAME, 0);
	walk->has_instants = 0;
}

/* Begins to write, with what goes on already. */
static void enter(struct walk *walk)
{
	walk->is_live = 1;
	walk->entered = walk->ns;
	for (int64_t number = 0; number < walk->given.lanes; number++) {
		struct lane *lane = &walk->lane[number];
		wide at = lane->depth ? on_track(lane, walk->entered) : 0;
		for (size_t depth = 0; depth < lane->depth; depth++) {
			struct open *entry = &lane->stack[depth];
			begin(walk, entry, entry->values, at, NULL, NULL, BEFORE_FROM);
			free(entry->values);
			entry->values = NULL;
		}
	}
	for (size_t at = 0; at < walk->touched_count; at++)
		walk->process[walk->touched[at]].touched = 0;
	walk->touched_count = 0;
	for (int64_t number = 1; number <= walk->given.processes; number++)
		touch(walk, (uint32_t)number, ALL_COUNTERS);
	count_touched(walk, walk->ns);
}

/* Goes on to a frame. Returns whether it is past the window. */
static int go_on_to_frame(struct walk *walk, int64_t seq, const int64_t *ts, uint32_t utid)
{
	if (walk->has_seq && seq == walk->seq)
		return 0;
	walk->has_seq = 1;
	walk->seq = seq;
	end_instants(walk);
	count_touched(walk, walk->ns);
	if (is_past(walk, seq))
		return 1;
	go_to_frame(walk, seq, ts, &walk->lane[walk->thread[utid].lane]);
	if (!walk->is_live && is_in_window(walk, &seq))
		enter(walk);
	return 0;
}

/* What was made of a stretch of the capture is handed over before the next one begins. */
static void come_to_place(struct walk *walk, int64_t place)
{
	if (place < walk->stretch_end || walk->stretch_end == INT64_MAX)
		return;
	walk->format->flush(walk);
	int64_t stretches = place / walk->given.stretch + 1;
	walk->stretch_end = stretches > INT64_MAX / walk->given.stretch ? INT64_MAX : stretches * walk->given.stretch;
}

typedef void handler(struct walk *walk, uint32_t utid, const struct row *row);

enum status walk_to(struct walk *walk, int64_t limit)
{
	static handler *const HANDLER[STREAMS] = { handle_send, handle_delivery, handle_record };
	struct stream *stream;
	while (walk->status == GOES_ON && (stream = rows_first(walk)) && stream->row.number[PLACE] < limit) {
		const struct row *row = &stream->row;
		uint32_t utid = (uint32_t)row->number[UTID];
		come_to_place(walk, row->number[PLACE]);
		if (go_on_to_frame(walk, row->number[SEQ], maybe(row, TS), utid))
			return IS_PAST;
		HANDLER[stream - walk->stream](walk, utid, row);
		rows_next(walk, stream);
	}
	return walk->status;
}

enum status walk_to_finding(struct walk *walk, int64_t place, int64_t seq, const int64_t *ts, int64_t utid)
{
	if (utid < 1 || utid > walk->given.threads)
		refuse(walk, NO_ROWS);
	enum status status = walk_to(walk, place < INT64_MAX ? place + 1 : place);
	if (status != GOES_ON)
		return status;
	come_to_place(walk, place);
	if (go_on_to_frame(walk, seq, ts, (uint32_t)utid))
		return IS_PAST;
	walk->instant_at = walk->ns;
	return walk->status == GOES_ON && !(walk->is_live && walk->thread[utid].is_shown) ? NOT_SHOWN : walk->status;
}

enum status walk_to_mark(struct walk *walk, int64_t place, int64_t next_finding, const int64_t *ts, int64_t upid,
			 enum why why, const int64_t *threads, size_t count)
{
	enum status status = walk_to(walk, place);
	if (status != GOES_ON)
		return status;
	const struct stream *stream = rows_first(walk);
	int64_t next = stream && stream->row.number[PLACE] < next_finding ? stream->row.number[PLACE] : next_finding;
	come_to_place(walk, next);
	end_instants(walk);
	count_touched(walk, walk->ns);
	wide ns = walk->ns;
	if (ts && walk->given.is_timed)
		ns = later_of(ns, *ts < walk->end ? *ts : walk->end);
	for (size_t at = 0; at < count; at++)
		if (threads[at] >= 1 && threads[at] <= walk->given.threads)
			leave(walk, (uint32_t)threads[at], why, ns);
	if (upid >= 1 && upid <= walk->given.processes) {
		touch(walk, (uint32_t)upid, ALL_COUNTERS);
		memset(walk->process[upid].now, 0, sizeof walk->process[upid].now);
		found_clear(&walk->process[upid].strong);
	}
	count_touched(walk, ns);
	walk->instant_at = ns;
	return walk->status;
}

void walk_instant(struct walk *walk)
{
	walk->count[INSTANTS]++;
	walk->has_instants = 1;
}

void walk_end(struct walk *walk)
{
	end_instants(walk);
	count_touched(walk, walk->ns);
	if (!walk->is_live && walk->given.begins_at_end)
		enter(walk);
	wide end = later_of(walk->ns, walk->end);
	for (int64_t number = 0; number < walk->given.lanes; number++)
		while (walk->lane[number].depth)
			pop(walk, &walk->lane[number], AT_END, &end, NULL);
	walk->format->flush(walk);
}

/* ---- what is given */

static void *many(struct walk *walk, int64_t count, size_t size)
{
	void *made = count < 0 || count >= UINT32_MAX ? NULL : calloc((size_t)count + 1, size);
	need(walk, made != NULL);
	return made;
}

void walk_begin(struct walk *walk, const struct given *given)
{
	if (walk->thread)
		return;
	walk->given = *given;
	walk->ns = given->ns;
	walk->end = (wide)((unsigned __int128)(uint64_t)given->end_high << 64 | (uint64_t)given->end);
	walk->stretch_end = given->stretch;
	walk->thread = many(walk, given->threads, sizeof *walk->thread);
	walk->process = many(walk, given->processes, sizeof *walk->process);
	walk->lane = many(walk, given->lanes, sizeof *walk->lane);
	if (walk->status != GOES_ON || given->stretch < 1)
		walk->given = (struct given){ 0 };
}

void walk_set_text(struct walk *walk, struct text *text, const unsigned char *data, size_t length)
{
	need(walk, set_text(text, data, length));
}

/* Whether a number from 1 on is one of so many. Nothing else is given. */
static int is_known(struct walk *walk, int64_t number, int64_t most)
{
	if (number < 1 || number > most)
		refuse(walk, NO_ROWS);
	return number >= 1 && number <= most;
}

void walk_set_thread(struct walk *walk, int64_t utid, int64_t upid, int64_t lane)
{
	const struct given *given = &walk->given;
	if (is_known(walk, utid, given->threads) && is_known(walk, upid, given->processes)
	    && is_known(walk, lane + 1, given->lanes)) {
		walk->thread[utid].process = (uint32_t)upid;
		walk->thread[utid].lane = (uint32_t)lane;
	}
}

void walk_show_thread(struct walk *walk, int64_t utid, const unsigned char *head, size_t length)
{
	if (!is_known(walk, utid, walk->given.threads))
		return;
	struct thread *thread = &walk->thread[utid];
	struct process *process = &walk->process[thread->process];
	walk_set_text(walk, &thread->head, head, length);
	thread->is_shown = process->is_shown = 1;
	if (!process->first_thread)
		process->first_thread = (uint32_t)utid;
}

void walk_set_ended(struct walk *walk, int64_t upid, int64_t ts)
{
	if (!is_known(walk, upid, walk->given.processes))
		return;
	walk->process[upid].has_ended = 1;
	walk->process[upid].ended = ts;
}

void walk_add_argument(struct walk *walk, int64_t sort, int64_t form, const unsigned char *head, size_t length)
{
	if (!is_known(walk, sort + 1, SORTS) || !is_known(walk, form + 1, VERDICT + 1)
	    || walk->arguments[sort] == MOST_ARGUMENTS)
		return;
	struct argument *argument = &walk->argument[sort][walk->arguments[sort]++];
	argument->form = (enum form)form;
	walk_set_text(walk, &argument->head, head, length);
}

void walk_add_clock(struct walk *walk, int64_t since, int64_t by)
{
	struct ahead *ahead = with_room(walk->ahead, walk->clocks, &walk->clocks_room, sizeof *ahead);
	need(walk, ahead != NULL);
	if (!ahead)
		return;
	walk->ahead = ahead;
	ahead[walk->clocks++] = (struct ahead){ since, by };
}

void walk_add_name(struct walk *walk, int64_t code, int64_t upid, int64_t ptr, int64_t what)
{
	need(walk, found_put(&walk->named, (struct key){ { code, upid, ptr, what } }, 0));
}
