#include "window.h"
#include "codes.h"
#include "frame.h"
#include "names.h"
#include "parts.h"
#include "side.h"
#include "stacks.h"
#include "table.h"
#include <stdarg.h>
#include <stdio.h>
#include <stdlib.h>
#include <string.h>

#define MOST_SLOTS (1u << 22)			/* the most numbers that are not settled */
#define MOST_MEMORY (256u << 20)		/* the most bytes of their frames and lines */
#define LONGEST_WAIT 10000000000u		/* how long a write may hold back later frames, in nanoseconds */
#define LONGEST_SETTLE 20000000u		/* how long frames are written before the ring is looked at again */
#define LONGEST_DOUBT 50000000u			/* how long a send waits for what comes of it, in nanoseconds */
#define LENT_PART 16u				/* so large a part of the ring may have messages that stay there */
#define STACK_HEAD offsetof(struct stack, addresses)

enum state { SILENT, WAITING, WHOLE, LOST };

struct slot {
	enum state state;
	u32 reason;
	int has_who;
	struct who who;
	struct frame *frame;
	u64 consumed;
	u64 since;				/* when it began to wait: for the driver, or for what comes of a send */
	int is_answered;			/* what came of its sends is known, or will not be */
	char *lines;				/* lines of the side list that come after this number */
	u64 line_bytes, line_room;
};

static struct slot *slots;
static u64 room;
static u64 next = 1, end = 1;			/* the numbers from `next` to before `end` have a slot */
static u64 checked;				/* no number up to this one is silent */
static u64 memory, waiting, frames, lost, lost_because[REASON_END];
static u64 last_number = UINT64_MAX, last_time = UINT64_MAX;	/* where the recording ends */
static u64 latest;				/* the latest time of a frame that was written */
static u64 latest_line;				/* and of a line of something that came after a number */
static u64 mark = UINT64_MAX;			/* after this number something else comes first */
static int (*at_mark)(void);
static struct table last_writes;		/* by thread: the number of its last write */
static int bounds_refused;
static int is_lent;				/* the message that is heard stays in the ring for a while */
static u64 *lent;				/* numbers of frames of which something is there */
static u32 lent_count, lent_room;

void window_bound_refused(void) { bounds_refused = 1; }
u64 window_waiting(void) { return waiting; }
u64 window_frames(void) { return frames; }
u64 window_lost(void) { return lost; }
u64 window_lost_because(enum reason reason) { return lost_because[reason]; }
u64 window_last(void) { return next - 1; }
u64 window_latest(void) { return latest; }
u64 window_latest_line(void) { return latest_line; }

static struct slot *at(u64 number)
{
	return slots + (number & (room - 1));
}

static void grow(u64 wanted)
{
	u64 larger = room ? room : 4096;
	while (larger < wanted)
		larger *= 2;
	struct slot *old = slots;
	u64 old_room = room;
	slots = allocate(larger * sizeof *slots);
	room = larger;
	for (u64 number = next; number < end; number++)
		*at(number) = old[number & (old_room - 1)];
	free(old);
}

static void lose_slot(struct slot *slot, u32 reason)
{
	if (slot->state == WAITING)
		waiting--;
	slot->state = LOST;
	slot->reason = reason < REASON_END ? reason : REASON_NONE;
}

/* Makes slots up to this number, which must not be below `next`. Returns its slot. */
static struct slot *add_slots(u64 number)
{
	if (number - next >= room)
		grow(number - next + 1);
	for (; end <= number; end++)
		*at(end) = (struct slot){ 0 };
	return at(number);
}

/* The slot of a number, or NULL if the number is settled already. */
static struct slot *slot_of(u64 number)
{
	if (number < next)
		return NULL;
	while (number - next >= MOST_SLOTS) {		/* too many are waiting: give up the lowest one */
		struct slot *lowest = next < end ? at(next) : add_slots(next);
		if (lowest->state == SILENT || lowest->state == WAITING)
			lose_slot(lowest, REASON_HELD_TOO_LONG);
		window_settle();
	}
	return add_slots(number);
}

static void write_lost(const struct slot *slot)
{
	u64 time = slot->frame && slot->frame->time ? slot->frame->time : slot->since ? slot->since : now();
	unsigned long long number = next;
	if (slot->has_who)
		side_line(time, "lost %llu device=%u process=%u thread=%u why=%s", number, slot->who.device,
			  slot->who.process, slot->who.thread, reason_word(slot->reason));
	else
		side_line(time, "lost %llu why=%s", number, reason_word(slot->reason));
	lost++;
	lost_because[slot->reason]++;
}

/* Each begins with its time. */
static void write_slot_lines(const char *lines)
{
	side_text(lines);
	for (const char *line = lines; *line; line = strchr(line, '\n') + 1) {
		u64 time = strtoull(line, NULL, 10);
		latest_line = time > latest_line ? time : latest_line;
	}
}

/* Writes the contents of the slot of `next`. Returns 0 if they wait for the next file. */
static int settle_slot(struct slot *slot)
{
	if (slot->state == WHOLE) {
		memory -= slot->frame->memory;
		enum reason reason = frame_write(slot->frame, slot->consumed);
		memory += slot->frame->memory;		/* what is redacted is not left in the ring */
		if (reason == REASON_LATER)
			return 0;
		if (reason)
			lose_slot(slot, reason);
		else
			frames++;
		if (!reason && slot->frame->time > latest)
			latest = slot->frame->time;
	}
	if (slot->state == LOST)
		write_lost(slot);
	if (slot->lines)
		write_slot_lines(slot->lines);
	free(slot->lines);
	memory -= slot->line_room;
	if (slot->frame)
		memory -= slot->frame->memory;
	frame_free(slot->frame);
	*slot = (struct slot){ 0 };
	return 1;
}

/* Whether the frame has much data of a send that the driver may have refused. What the thread reads next says so, mostly
 * in the same call; a call that is served is answered later, so nothing waits long. */
static int is_in_doubt(const struct slot *slot, u64 time)
{
	return bounds_refused && slot->state == WHOLE && !slot->is_answered && memory <= MOST_MEMORY / 2 &&
	       slot->since + LONGEST_DOUBT > time && frame_is_in_doubt(slot->frame, slot->consumed);
}

void window_mark(u64 number, int (*then)(void))
{
	mark = number;
	at_mark = then;
}

/* Does what comes before the next number. Returns 0 if that is not done yet. */
static int pass_mark(void)
{
	if (!at_mark())
		return 0;
	mark = UINT64_MAX;
	return 1;
}

/* Returns 1 if there is more to write. */
static int settle(void)
{
	u64 began = now();
	for (u64 first = next;;) {
		if (next > mark && !pass_mark())
			return 1;
		if (next == end)
			return 0;
		struct slot *slot = at(next);
		if (slot->state == WAITING && (slot->since + LONGEST_WAIT < began || memory > MOST_MEMORY))
			lose_slot(slot, REASON_HELD_TOO_LONG);
		if ((slot->state != WHOLE && slot->state != LOST) || is_in_doubt(slot, began))
			return 0;
		if (next > first && memory <= MOST_MEMORY && now() - began > LONGEST_SETTLE)
			return 1;
		if (settle_slot(slot))
			next++;
		else if (memory <= MOST_MEMORY)
			return 1;
	}
}

int window_settle(void)
{
	int has_more = settle();
	names_settled(next - 1);
	return has_more;
}

void window_silent_until(u64 bound)
{
	if (bound < next)
		return;
	slot_of(bound);
	for (u64 number = checked + 1 > next ? checked + 1 : next; number <= bound; number++)
		if (at(number)->state == SILENT)
			lose_slot(at(number), REASON_RING_FULL);
	if (bound > checked)
		checked = bound;
}

void window_stop(u64 number, u64 time)
{
	last_number = number;
	last_time = time;
}

void window_end(void)
{
	bounds_refused = 0;			/* nothing comes any more */
	window_silent_until(last_number);
	for (u64 number = next; number < end; number++)
		if (at(number)->state == WAITING)
			lose_slot(at(number), REASON_IN_FLIGHT);
	while (window_settle())
		continue;
}

void later_line(u64 time, u64 after, const char *format, ...)
{
	char line[LONGEST_LINE];
	va_list arguments;
	va_start(arguments, format);
	vsnprintf(line, sizeof line, format, arguments);
	va_end(arguments);
	struct slot *slot = slot_of(after);
	if (!slot) {
		side_line(time, "%s", line);
		latest_line = time > latest_line ? time : latest_line;
		return;
	}
	u64 more = strlen(line) + 32;
	if (slot->line_bytes + more > slot->line_room) {
		memory -= slot->line_room;
		slot->line_room = 2 * (slot->line_bytes + more);
		slot->lines = resize(slot->lines, slot->line_room);
		memory += slot->line_room;
	}
	slot->line_bytes += (u64)snprintf(slot->lines + slot->line_bytes, more, "%llu %s\n",
					  (unsigned long long)time, line);
}

static struct frame *frame_of(struct slot *slot, u64 number)
{
	if (!slot->frame) {
		slot->frame = frame_make(number);
		memory += slot->frame->memory;
	}
	return slot->frame;
}

/* A thread that begins something else has finished its last write, even if the ring had no room to say so. */
static void end_wait(u32 thread, u64 but_not)
{
	u64 *number = table_find(&last_writes, thread, 0);
	if (!number || !*number || *number == but_not)
		return;
	struct slot *slot = slot_of(*number);
	if (slot && slot->state == WAITING)
		lose_slot(slot, REASON_RING_FULL);
	*number = 0;
}

/* A thread reads, or writes again: what came of the last send of its last write is known. */
static void answer_write(const struct chunk *chunk)
{
	const u64 *number = table_find(&last_writes, chunk->head.thread, 0);
	struct slot *slot = number && *number && *number != chunk->head.number ? slot_of(*number) : NULL;
	if (!slot || slot->state != WHOLE)
		return;
	slot->is_answered = 1;
	slot->frame->is_refused = chunk->head.direction == DIRECTION_READ &&
				  returns_refuse((const u8 *)(chunk + 1), chunk->commands);
}

static void hear_chunk(const struct chunk *chunk)
{
	const struct message *head = &chunk->head;
	if (bounds_refused)
		answer_write(chunk);
	end_wait(head->thread, head->number);
	struct who who = names_of(head->opening, head->thread, head->time);
	struct slot *slot = slot_of(head->number);
	if (!slot || slot->state == LOST || slot->state == WHOLE)
		return;
	struct frame *frame = frame_of(slot, head->number);
	memory -= frame->memory;
	frame->who = slot->who = who;
	frame->direction = head->direction;
	slot->has_who = 1;
	int is_last = frame_add_chunk(frame, chunk);
	memory += frame->memory;
	if (slot->state != SILENT)
		return;
	if (head->direction == DIRECTION_READ) {
		slot->consumed = frame->bytes;
		slot->state = is_last ? WHOLE : SILENT;
	} else {
		slot->state = WAITING;
		slot->since = now();
		waiting++;
		*table_make(&last_writes, head->thread, 0) = head->number;
	}
}

/* Whether so many bytes are all that a message of this type is, and says to have behind it. */
static int is_whole(const struct message *head, u32 type, u64 bytes)
{
	const struct chunk *chunk = (const void *)head;
	const struct piece *piece = (const void *)head;
	const struct stack *stack = (const void *)head;
	switch (type) {
	case MESSAGE_CHUNK: return bytes >= sizeof *chunk && chunk->commands <= bytes - sizeof *chunk;
	case MESSAGE_PIECE: return bytes >= sizeof *piece && piece->bytes <= bytes - sizeof *piece;
	case MESSAGE_STACK: return bytes >= STACK_HEAD && stack->count <= (bytes - STACK_HEAD) / sizeof *stack->addresses;
	case MESSAGE_COMMAND: return bytes >= sizeof(struct command);
	case MESSAGE_WRITTEN: return bytes >= offsetof(struct event, written) + sizeof((struct event *)0)->written;
	default: return bytes >= sizeof(struct event);
	}
}

/* Notes that bytes of this frame are in the ring. Most pieces follow another one of their frame. */
static void note_lent(u64 number)
{
	if (lent_count && lent[lent_count - 1] == number)
		return;
	if (lent_count == lent_room) {
		lent_room = lent_room ? 2 * lent_room : 64;
		lent = resize(lent, lent_room * sizeof *lent);
	}
	lent[lent_count++] = number;
}

static void hear_piece(const struct piece *piece)
{
	struct slot *slot = slot_of(piece->head.number);
	if (!slot || slot->state == LOST || slot->state == WHOLE)
		return;
	struct frame *frame = frame_of(slot, piece->head.number);
	memory -= frame->memory;
	if (frame_add_piece(frame, piece, is_lent))
		note_lent(frame->number);
	memory += frame->memory;
}

/* A small frame has the pieces of its attachments in the message of its only chunk, behind the commands. */
static void hear_whole_chunk(const struct chunk *chunk, u64 bytes)
{
	u64 at = sizeof *chunk + MULTIPLE_OF_8(chunk->commands);
	while (at < bytes) {
		const struct piece *piece = (const void *)((const u8 *)chunk + at);
		if (!is_whole(&piece->head, MESSAGE_PIECE, bytes - at) || piece->head.number != chunk->head.number)
			break;
		hear_piece(piece);
		at += MULTIPLE_OF_8(sizeof *piece + piece->bytes);
	}
	hear_chunk(chunk);
}

static void hear_written(const struct event *event)
{
	struct slot *slot = slot_of(event->head.number);
	if (!slot || slot->state != WAITING)
		return;
	waiting--;
	slot->state = WHOLE;
	slot->consumed = event->written.consumed;
	if (bounds_refused)
		slot->since = now();
}

static void hear_lost(const struct event *event)
{
	struct who who = names_of(event->head.opening, event->head.thread, event->head.time);
	struct slot *slot = slot_of(event->head.number);
	if (!slot || slot->state == LOST || slot->state == WHOLE)
		return;
	slot->who = who;
	slot->has_who = 1;
	if (!slot->since)
		slot->since = event->head.time;
	lose_slot(slot, (u32)event->lost.reason);
}

static void hear_note(const struct event *event)
{
	struct slot *slot = slot_of(event->head.number);
	if (!slot || slot->state == LOST || slot->state == WHOLE)
		return;
	struct frame *frame = frame_of(slot, event->head.number);
	memory -= frame->memory;
	frame_add_note(frame, (u32)event->note.record, (u32)event->note.reason);
	memory += frame->memory;
}

static void hear_stack(const struct stack *stack)
{
	struct slot *slot = slot_of(stack->head.number);
	if (slot && slot->state == WAITING && slot->frame)
		slot->frame->stack = stacks_hear(stack);
}

static void hear_event(const struct event *event)
{
	const struct message *head = &event->head;
	switch (head->type) {
	case MESSAGE_WRITTEN: hear_written(event); break;
	case MESSAGE_LOST: hear_lost(event); break;
	case MESSAGE_UNATTACHED: case MESSAGE_LATE: hear_note(event); break;
	case MESSAGE_OPENING:
		names_opening(head->opening, head->time, event->opening.device, event->opening.process,
			      event->opening.start, event->name, head->thread ? MET_FROM_START : MET_IN_MID_LIFE);
		names_space(head->opening, event->opening.space, event->opening.id_there);
		break;
	case MESSAGE_THREAD:
		names_thread(head->thread, event->thread.id, event->thread.process, event->thread.start, event->name);
		names_bits(head->thread, event->thread.bits);
		break;
	case MESSAGE_NAME: names_changed(head->thread, event->name, head->time, head->number); break;
	case MESSAGE_CLOSED: names_closed(head->opening, head->time, head->number); break;
	case MESSAGE_LEFT: names_left(head->opening, head->thread, head->time, head->number); break;
	case MESSAGE_ENDED:
		end_wait(head->thread, 0);
		names_ended(head->thread, (u32)event->ended.process, (int)event->ended.is_last, head->time,
			    head->number);
		break;
	}
}

/* Whether a message tells of what came after the recording: of a later frame or, if it is of no frame, of a later time.
 * What frames of the recording need to know of their threads came before them, and what is told of such a frame has its
 * number, be it ever so late. */
static int is_after_end(const struct message *head)
{
	int is_of_frame = head->type < MESSAGE_OPENING || head->type == MESSAGE_STACK;
	return head->number > last_number || (!is_of_frame && head->time > last_time);
}

void window_hear(const void *message, u64 bytes)
{
	const struct message *head = message;
	if (bytes < sizeof *head || !is_whole(head, head->type, bytes) || is_after_end(head))
		return;
	if (head->type == MESSAGE_CHUNK)
		hear_whole_chunk(message, bytes);
	else if (head->type == MESSAGE_PIECE)
		hear_piece(message);
	else if (head->type == MESSAGE_COMMAND)
		names_command(message);
	else if (head->type == MESSAGE_STACK)
		hear_stack(message);
	else
		hear_event(message);
}

long window_take(struct ring *ring)
{
	is_lent = ring->lends = ring_waiting(ring) <= ring->size / LENT_PART;
	long count = ring_drain(ring, window_hear);
	is_lent = 0;
	if (!lent_count)
		ring_give_back(ring);
	return count;
}

static void keep_frame(struct frame *frame)
{
	memory -= frame->memory;
	frame_keep(frame);
	memory += frame->memory;
}

void window_give_back(struct ring *ring)
{
	if (lent_count)
		parts_flush();
	for (u32 i = 0; i < lent_count; i++)
		if (lent[i] >= next && at(lent[i])->frame)
			keep_frame(at(lent[i])->frame);
	lent_count = 0;
	ring_give_back(ring);
}
