/* What most calls write and read: a few commands, with little data. One copy takes all commands, and one message has them
 * in the ring, with the data of their transactions behind them. What is more, is not there, or finds no room is left to
 * copy.bpf.h. */
#ifndef RECORDER_SMALL_BPF_H
#define RECORDER_SMALL_BPF_H
#include "copy.bpf.h"

#define SMALL 512u			/* the most bytes of commands */
#define FEW_RECORDS 16u			/* the most records that are looked at for data */
#define SMALL_DATA 0x3fffu		/* the most bytes of data, of offsets, and of what is before them in the message */

/* Copies the bytes of a small frame into the chunk. Returns 0 if it did. */
static __always_inline int read_small(struct scratch *s, u64 bytes, u64 from)
{
	BOUND(bytes, 0x3ff);
	return read_memory(s->chunk_bytes, bytes, from) != 0;
}

/* Puts the message into the ring: these commands, and what is behind them up to `end`. Returns 0 if there was room. */
static __always_inline int tell_small(struct scratch *s, u32 commands, u32 next, u64 end)
{
	BOUND(end, 0xffff);
	s->chunk.commands = commands;
	s->chunk.next = next;
	s->chunk.base = s->chunk.late = 0;
	if (bpf_ringbuf_query(&ring, BPF_RB_AVAIL_DATA) + end > ring_limit)
		return 1;
	return bpf_ringbuf_output(&ring, &s->chunk, sizeof s->chunk + end, QUIETLY) != 0;
}

/* Copies the data of a record behind the first `end` bytes of the chunk's. Returns where it ends, or 0 if it is not
 * copied. */
static __always_inline u64 put_piece(struct scratch *s, struct thread *t, u64 record, u64 end)
{
	const struct message *head = &s->chunk.head;
	struct place place;
	BOUND(record, 0x3ff);
	__builtin_memcpy(&place, s->chunk_bytes + record + CODE_WORD + DATA_AT, sizeof place);
	u64 data = place.data, offsets = place.offsets;
	if (!data && !offsets)
		return end;
	if (data > SMALL_DATA || offsets > SMALL_DATA || end > SMALL_DATA)
		return 0;
	if (t->attachments >= MOST_ATTACHMENTS || t->attached + data + offsets > MOST_ATTACHED)
		return 0;
	if (head->direction == DIRECTION_READ && !t->reads_own_memory)
		return 0;
	BOUND(end, 0x3fff);
	BOUND(data, 0x3fff);
	BOUND(offsets, 0x3fff);
	struct piece *p = (void *)(s->chunk_bytes + end);
	u8 *to = s->chunk_bytes + end + sizeof *p;
	p->head.type = MESSAGE_PIECE;
	p->head.direction = head->direction;
	p->head.number = head->number;
	p->record = record;
	p->data = data;
	p->offsets = offsets;
	p->at = 0;
	p->bytes = data + offsets;
	if (data && read_memory(to, data, place.data_from))
		return 0;
	if (offsets && read_memory(to + data, offsets, place.offsets_from))
		return 0;
	t->attachments++;
	t->attached += data + offsets;
	return MULTIPLE_OF_8(end + sizeof *p + data + offsets);
}

/* Copies the data of the records in the chunk behind its first `end` bytes. Returns where it ends. It has looked at the
 * first `s->walk.at` bytes of the records. */
static __always_inline u64 put_pieces(struct scratch *s, struct thread *t, u64 bytes, u64 end)
{
	u64 at = 0;
	for (u32 i = 0; i < FEW_RECORDS && at < bytes; i++) {
		u64 record = at, after = end;
		BOUND(record, 0x3ff);
		u32 word = *(u32 *)(s->chunk_bytes + record);
		u64 next = record + CODE_WORD + (word >> 16 & 0x3fff);
		if (next > bytes)
			break;
		if (!no_attachments && has_data(s->chunk.head.direction, word))
			after = put_piece(s, t, record, end);
		if (!after)
			break;
		end = after;
		at = next;
	}
	s->walk.at = at;
	return end;
}

/* Copies all commands of a write. Returns 0 if it did. Then the data of the first `t->looked_at` bytes of them is copied
 * too. */
static __always_inline int copy_small_write(struct scratch *s, struct thread *t, u64 time)
{
	u64 bytes = t->write_bytes + BEYOND_END;
	if (t->write_bytes > SMALL || read_small(s, bytes, t->write_from))
		return 1;
	begin_chunk(s, t, DIRECTION_WRITE, t->write_number, time);
	u64 end = put_pieces(s, t, t->write_bytes, MULTIPLE_OF_8(bytes));
	if (tell_small(s, bytes, bytes, end)) {
		t->attachments = t->attached = 0;
		return 1;
	}
	t->has_chunk = 1;
	t->copied = bytes;
	t->spent = end;
	t->looked_at = s->walk.at;
	return 0;
}

/* Copies what the call read. Returns 0 if it did. */
static __noinline int copy_small_read(struct scratch *s, struct thread *t, u64 from, u64 bytes, u64 number)
{
	if (!s || !t || bytes > SMALL || read_small(s, bytes, from))
		return 1;
	u32 attachments = t->attachments;
	u64 attached = t->attached;
	begin_chunk(s, t, DIRECTION_READ, number, bpf_ktime_get_ns());
	u64 end = put_pieces(s, t, bytes, MULTIPLE_OF_8(bytes));
	if (s->walk.at == bytes && !tell_small(s, bytes, 0, end))
		return 0;
	t->attachments = attachments;		/* they do not count twice */
	t->attached = attached;
	return 1;
}
#endif
