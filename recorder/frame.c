#define _GNU_SOURCE
#include "frame.h"
#include "codes.h"
#include "descriptors.h"
#include "grammar.h"
#include "live.h"
#include "met.h"
#include "open_calls.h"
#include "parts.h"
#include "pool.h"
#include "redact.h"
#include "side.h"
#include "stacks.h"
#include <string.h>

#define FRAME_HEAD 32u
#define ENTRY_HEAD 12u
#define MOST_OF_REFUSED 4096u	/* the most bytes of an attachment of a send that was refused */
#define LEAST_LENT 4096u	/* the least bytes of an attachment that is written straight from the ring */

static u64 entries_written, entries_left_out;

u64 frame_entries_written(void)
{
	return entries_written;
}

u64 frame_entries_left_out(void)
{
	return entries_left_out;
}

struct frame *frame_make(u64 number)
{
	struct frame *frame = pool_take(sizeof *frame);
	*frame = (struct frame){ .number = number, .memory = pool_room(sizeof *frame) };
	return frame;
}

static u64 whole_bytes(const struct entry *entry)
{
	return (u64)entry->data + entry->offsets;
}

/* An entry that was in the ring has its bytes apart from itself. */
static int is_apart(const struct entry *entry)
{
	return entry->bytes != entry->own;
}

static u64 head_bytes(const struct entry *entry)
{
	return sizeof *entry + (is_apart(entry) ? 0 : whole_bytes(entry));
}

static u64 memory_of(const struct entry *entry)
{
	return pool_room(head_bytes(entry)) + (is_apart(entry) && entry->bytes ? pool_room(whole_bytes(entry)) : 0);
}

static void forget_lent(struct entry *entry)
{
	for (struct lent *lent = entry->lent, *next; lent; lent = next) {
		next = lent->next;
		pool_give(lent, sizeof *lent);
	}
	entry->lent = entry->last_lent = NULL;
}

static void free_entry(struct entry *entry)
{
	if (is_apart(entry)) {
		forget_lent(entry);
		pool_give(entry->bytes, whole_bytes(entry));
	}
	pool_give(entry, head_bytes(entry));
}

void frame_free(struct frame *frame)
{
	if (!frame)
		return;
	for (struct entry *entry = frame->entries, *next; entry; entry = next) {
		next = entry->next;
		free_entry(entry);
	}
	for (struct note *note = frame->notes, *next; note; note = next) {
		next = note->next;
		pool_give(note, sizeof *note);
	}
	pool_give(frame->commands, frame->room);
	pool_give(frame, sizeof *frame);
}

/* Makes an empty entry, without memory for its bytes if they stay in the ring. */
static struct entry *make_entry(u32 record, u32 data, u32 offsets, int is_lent)
{
	u64 bytes = (u64)data + offsets;
	struct entry *entry = pool_take(sizeof *entry + (is_lent ? 0 : bytes));
	*entry = (struct entry){ .record = record, .data = data, .offsets = offsets };
	entry->bytes = is_lent ? NULL : entry->own;
	return entry;
}

/* Makes a new, empty entry for the record. It replaces an entry that the record has. Mostly it is the last one. */
static struct entry *new_entry(struct frame *frame, u32 record, u32 data, u32 offsets, int is_lent)
{
	struct entry *last = frame->last_entry, *old;
	struct entry **place = last && last->record < record ? &last->next : &frame->entries;
	while (*place && (*place)->record < record)
		place = &(*place)->next;
	old = *place;
	struct entry *entry = make_entry(record, data, offsets, is_lent);
	entry->next = old;
	if (old && old->record == record) {
		entry->next = old->next;
		frame->memory -= memory_of(old);
		free_entry(old);
	}
	*place = entry;
	if (!entry->next)
		frame->last_entry = entry;
	frame->memory += memory_of(entry);
	return entry;
}

static struct entry *find_entry(const struct frame *frame, u32 record)
{
	struct entry *last = frame->last_entry, *entry = last && last->record <= record ? last : frame->entries;
	while (entry && entry->record < record)
		entry = entry->next;
	return entry && entry->record == record ? entry : NULL;
}

/* Makes room for the commands of one more chunk, also if that has none. Most frames have one chunk. */
static void make_room(struct frame *frame, u64 count)
{
	u64 bytes = frame->bytes + count;
	if (frame->commands && bytes <= frame->room)
		return;
	u64 room = pool_room(frame->bytes ? 2 * bytes : bytes);
	u8 *larger = pool_take(room);
	if (frame->bytes)
		memcpy(larger, frame->commands, frame->bytes);
	pool_give(frame->commands, frame->room);
	frame->commands = larger;
	frame->memory += room - frame->room;
	frame->room = room;
}

int frame_add_chunk(struct frame *frame, const struct chunk *chunk)
{
	const u8 *bytes = (const u8 *)(chunk + 1);
	u64 count = chunk->next ? chunk->next - chunk->base : chunk->commands;
	frame->is_late |= chunk->late != 0;
	if (frame->time == 0)
		frame->time = chunk->head.time;
	if (chunk->base != frame->expected || count > chunk->commands) {
		frame->is_broken = 1;
		return chunk->next == 0;
	}
	make_room(frame, count);
	memcpy(frame->commands + frame->bytes, bytes, count);
	frame->bytes += count;
	frame->expected = chunk->next;
	return chunk->next == 0;
}

static void add_lent(struct entry *entry, const void *bytes, u64 count)
{
	struct lent *lent = pool_take(sizeof *lent);
	*lent = (struct lent){ .bytes = bytes, .count = count };
	if (entry->last_lent)
		entry->last_lent->next = lent;
	else
		entry->lent = lent;
	entry->last_lent = lent;
}

/* Gives an entry whose bytes are in the ring memory of its own for them. */
static void keep(struct frame *frame, struct entry *entry)
{
	u64 at = 0;
	frame->memory -= memory_of(entry);
	entry->bytes = pool_take(whole_bytes(entry));
	frame->memory += memory_of(entry);
	for (const struct lent *lent = entry->lent; lent; lent = lent->next) {
		memcpy(entry->bytes + at, lent->bytes, lent->count);
		at += lent->count;
	}
	forget_lent(entry);
}

void frame_keep(struct frame *frame)
{
	for (struct entry *entry = frame->entries; entry; entry = entry->next)
		if (!entry->bytes)
			keep(frame, entry);
}

int frame_add_piece(struct frame *frame, const struct piece *piece, int is_lent)
{
	int stays = is_lent && (u64)piece->data + piece->offsets >= LEAST_LENT;
	if ((u64)piece->data + piece->offsets > MOST_AT_ONCE)
		return 0;
	struct entry *entry = piece->at ? find_entry(frame, piece->record)
					: new_entry(frame, piece->record, piece->data, piece->offsets, stays);
	if (!entry || entry->got != piece->at || entry->data != piece->data || entry->offsets != piece->offsets)
		return 0;
	if (piece->bytes > whole_bytes(entry) - entry->got)
		return 0;
	if (entry->bytes)
		memcpy(entry->bytes + entry->got, piece + 1, piece->bytes);
	else
		add_lent(entry, piece + 1, piece->bytes);
	entry->got += piece->bytes;
	return !entry->bytes;
}

void entry_read(const struct entry *entry, u64 at, void *to, u64 count)
{
	if (entry->bytes) {
		memcpy(to, entry->bytes + at, count);
		return;
	}
	for (const struct lent *lent = entry->lent; lent && count; lent = lent->next) {
		if (at >= lent->count) {
			at -= lent->count;
			continue;
		}
		u64 here = count < lent->count - at ? count : lent->count - at;
		to = (u8 *)mempcpy(to, lent->bytes + at, here);
		count -= here;
		at = 0;
	}
}

void frame_add_note(struct frame *frame, u32 record, u32 reason)
{
	struct note *note = pool_take(sizeof *note);
	*note = (struct note){ .record = record, .reason = reason };
	if (frame->last_note)
		frame->last_note->next = note;
	else
		frame->notes = note;
	frame->last_note = note;
	frame->memory += pool_room(sizeof *note);
}

/* Keeps what the driver consumed: its commands, and of them the attachments that came whole. */
static void cut(struct frame *frame, u64 consumed)
{
	for (struct entry **place = &frame->entries, *entry; (entry = *place) != NULL;) {
		if (entry->record < consumed && entry->got == whole_bytes(entry)) {
			place = &entry->next;
			continue;
		}
		*place = entry->next;
		frame->memory -= memory_of(entry);
		free_entry(entry);
	}
	for (struct note **place = &frame->notes, *note; (note = *place) != NULL;) {
		if (note->record < consumed) {
			place = &note->next;
			continue;
		}
		*place = note->next;
		frame->memory -= pool_room(sizeof *note);
		pool_give(note, sizeof *note);
	}
	frame->last_entry = NULL;
	frame->last_note = frame->notes;
	while (frame->last_note && frame->last_note->next)
		frame->last_note = frame->last_note->next;
	frame->bytes = consumed;
}

/* The attachment of the last record that the driver consumed, if it is a large one; or NULL. */
static struct entry *large_last_entry(const struct frame *frame, u64 consumed)
{
	struct entry *last = NULL;
	struct record record;
	for (struct entry *entry = frame->entries; entry && entry->record < consumed; entry = entry->next)
		last = entry;
	if (!last || whole_bytes(last) <= MOST_OF_REFUSED)
		return NULL;
	return record_at(frame->commands, frame->bytes, last->record, &record) && record.end == consumed ? last : NULL;
}

int frame_is_in_doubt(const struct frame *frame, u64 consumed)
{
	return frame->direction == DIRECTION_WRITE && large_last_entry(frame, consumed);
}

/* Leaves out the data of the last send, if it is much: an app that has no rights can send it as often as it likes. */
static void leave_out_refused(struct frame *frame)
{
	struct entry *last = large_last_entry(frame, frame->bytes), **place = &frame->entries;
	if (!last)
		return;
	while (*place != last)
		place = &(*place)->next;
	*place = last->next;
	frame_add_note(frame, last->record, REASON_REFUSED);
	frame->memory -= memory_of(last);
	free_entry(last);
}

static u64 entry_bytes(const struct frame *frame)
{
	u64 bytes = 0;
	for (const struct entry *entry = frame->entries; entry; entry = entry->next)
		bytes += ENTRY_HEAD + entry->got;
	return bytes;
}

static void write_head(const struct frame *frame, u64 attached)
{
	u32 head[8] = { (u32)frame->number, (u32)(frame->number >> 32), frame->who.process, frame->who.thread,
			frame->direction, (u32)frame->bytes, (u32)attached, frame->who.device };
	parts_add(head, sizeof head);
	parts_add(frame->commands, frame->bytes);
}

static void write_bytes(const struct entry *entry)
{
	if (entry->bytes)
		parts_add(entry->bytes, entry->got);
	for (const struct lent *lent = entry->lent; lent; lent = lent->next)
		parts_lend(lent->bytes, lent->count);
}

static void write_entries(struct frame *frame)
{
	for (struct entry *entry = frame->entries; entry; entry = entry->next) {
		u32 head[3] = { entry->record, entry->data, entry->offsets };
		if (redact_wants(frame, entry)) {
			frame_keep(frame);
			redact(frame, entry);
		}
		parts_add(head, sizeof head);
		write_bytes(entry);
		entries_written++;
	}
}

/* From this record on none has an entry: the call's bound was reached. */
static void write_left_out(const struct frame *frame, u32 record)
{
	u64 count = records_with_data(frame->commands, frame->bytes, record, frame->direction);
	entries_left_out += count;
	if (count)
		side_line(frame->time, "unattached %llu from=%u count=%llu why=%s", (unsigned long long)frame->number,
			  record, (unsigned long long)count, reason_word(REASON_TOO_MANY));
}

static void write_lines(const struct frame *frame, int attachments_left_out)
{
	unsigned long long number = frame->number;
	side_frame(frame->time, number);
	if (frame->stack)
		stacks_tell_call(frame->time, number, frame->stack);
	if (frame->is_late)
		side_line(frame->time, "late %llu commands", number);
	for (const struct note *note = frame->notes; note; note = note->next) {
		entries_left_out += note->reason == REASON_TOO_LARGE || note->reason == REASON_REFUSED;
		if (note->reason == REASON_TOO_MANY)
			write_left_out(frame, note->record);
		else if (note->reason)
			side_line(frame->time, "unattached %llu at=%u why=%s", number, note->record,
				  reason_word(note->reason));
		else
			side_line(frame->time, "late %llu at=%u", number, note->record);
	}
	for (const struct entry *entry = frame->entries; entry && attachments_left_out; entry = entry->next)
		side_line(frame->time, "unattached %llu at=%u why=%s", number, entry->record,
			  reason_word(REASON_FILE_TOO_SMALL));
}

enum reason frame_write(struct frame *frame, u64 consumed)
{
	if (consumed > frame->bytes || frame->is_broken)
		return REASON_BROKEN;
	cut(frame, consumed);
	if (frame->is_refused)
		leave_out_refused(frame);
	if (!grammar_allows(frame))
		return REASON_BROKEN;
	u64 attached = entry_bytes(frame);
	int left_out = attached && (attached > 0xffffffffu || !parts_have_room(FRAME_HEAD + consumed + attached));
	if (left_out)
		attached = 0;
	if (!parts_have_room(FRAME_HEAD + consumed))
		return REASON_FILE_TOO_SMALL;
	int error = parts_next_frame(frame->number, frame->time, FRAME_HEAD + consumed + attached);
	if (error)
		return error == PARTS_LATER ? REASON_LATER : REASON_NOT_WRITTEN;
	write_head(frame, attached);
	if (attached)
		write_entries(frame);
	write_lines(frame, left_out);
	met_frame(frame);
	open_calls_frame(frame);
	live_frame(frame);
	descriptors_frame(frame);
	return REASON_NONE;
}
