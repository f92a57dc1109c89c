/* Copies the bytes of a frame, and the data of its transactions and replies, into the ring. No run of a program may
 * take long, as it keeps its processor: each copies a few chunks, or one attachment, and the next one goes on. */
#ifndef RECORDER_COPY_BPF_H
#define RECORDER_COPY_BPF_H
#include "state.bpf.h"

/* Memory that a thread used a moment ago can be away for some time, for example while the kernel merges small pages. A
 * program here can't wait for it; where there is no later chance, it tries again, up to this often and this long. */
#define TRIES 1000
#define LONGEST_TRY 300000u	/* nanoseconds, in one run */
#define RUN_CHUNKS 8u		/* the most chunks of a write that one run copies */
#define MOST_RECORDS 4096u	/* the most records of a read that are looked at for attachments */
#define CODE_WORD 4u
#define DATA_AT 32u		/* where data_size is in a transaction; offsets_size, buffer and offsets follow */
#define TRANSACTION_BYTES 64u

/* Copies memory of the process. On arm64 the topmost byte of an address can be a tag. Some kernels do not accept such
 * an address as one of a process, so it is then read without the tag. */
static __always_inline long read_memory(void *to, u64 bytes, u64 from)
{
	long failed = bpf_probe_read_user(to, bytes, (void *)from);
#ifdef __TARGET_ARCH_arm64
	if (failed && from >> 56)
		failed = bpf_probe_read_user(to, bytes, (void *)(from & ~(0xffull << 56)));
#endif
	return failed;
}

/* Takes room in the ring from the share of the frame. Returns 0 if there is none. The first bytes of a frame may use
 * the whole ring and the others only half of it: whoever hands over much does not take the room of others. */
static __always_inline int take_room(struct thread *t, u64 bytes)
{
	u64 limit = t->spent < FIRST_BYTES ? ring_limit : ring_limit / 2;
	t->spent += bytes;
	return bpf_ringbuf_query(&ring, BPF_RB_AVAIL_DATA) + bytes <= limit;
}

/* Begins to count what this run of a program copies, and how long it tries. */
static __always_inline void begin_run(struct scratch *s)
{
	s->until = s->attached = 0;
}

/* After a try that failed: whether this run has tried for long enough. */
static __always_inline int has_tried(struct scratch *s)
{
	u64 time = bpf_ktime_get_ns();
	if (!s->until)
		s->until = time + LONGEST_TRY;
	return time > s->until;
}

STEP(try_chunk)
{
	struct scratch *s = scratch();
	if (!s)
		return 1;
	u64 length = s->length;
	BOUND(length, 0xffff);
	s->failed = read_memory(s->chunk_bytes, length, s->from);
	return s->failed == 0 || has_tried(s);
}

STEP(try_call)
{
	struct scratch *s = scratch();
	if (!s)
		return 1;
	s->failed = read_memory(&s->call, sizeof s->call, s->from);
	return s->failed == 0 || has_tried(s);
}

static __noinline int try_to_read_call(struct scratch *s, u64 call)
{
	if (!s)
		return 1;
	s->from = call;
	LOOP(TRIES, try_call);
	return s->failed != 0;
}

/* Copies the binder_write_read at `call` into the scratch. Returns 0 if it could be read. */
static __always_inline int read_call(struct scratch *s, u64 call)
{
	begin_run(s);
	return read_memory(&s->call, sizeof s->call, call) && try_to_read_call(s, call);
}

/* Copies bytes of the process into the chunk, and tries again if need be. Returns 0 if they could be read. */
static __noinline int read_chunk(u64 from, u32 bytes)
{
	struct scratch *s = scratch();
	if (!s)
		return 1;
	s->from = from;
	s->length = bytes;
	LOOP(TRIES, try_chunk);
	return s->failed != 0;
}

/* Begins a message with commands of a frame. */
static __always_inline void begin_chunk(struct scratch *s, const struct thread *t, u32 direction, u64 number, u64 time)
{
	struct message *h = &s->chunk.head;
	h->type = MESSAGE_CHUNK;
	h->direction = direction;
	h->number = number;
	h->time = time;
	h->opening = t->opening;
	h->thread = t->id;
}

/* Copies what can be read of the bytes, page by page. Returns how many bytes that is. */
static __noinline u32 read_pages(u64 from, u32 length)
{
	struct scratch *s = scratch();
	u32 got = 0, i;
	if (!s)
		return 0;
	for (i = 0; i < CHUNK / 4096 + 2 && got < length; i++) {
		u32 page = 4096 - ((u32)(from + got) & 4095);
		if (page > length - got)
			page = length - got;
		u64 bytes = page, at = got;
		BOUND(bytes, 0x1fff);
		BOUND(at, 0x7fff);
		if (read_memory(s->chunk_bytes + at, bytes, from + got))
			break;
		got += page;
	}
	return got;
}

/* ---- attachments */

static __always_inline void begin_piece(struct piece *p, const struct attachment *a, u32 bytes)
{
	p->head.type = MESSAGE_PIECE;
	p->head.direction = a->direction;
	p->head.number = a->number;
	p->head.time = 0;
	p->head.opening = a->opening;
	p->head.thread = a->thread;
	p->record = a->record;
	p->data = a->place.data;
	p->offsets = a->place.offsets;
	p->at = a->at;
	p->bytes = bytes;
}

/* Copies a small attachment, in one message. */
static __noinline int copy_whole(struct thread *t)
{
	struct scratch *s = scratch();
	if (!s || !t)
		return REASON_UNREADABLE;
	struct attachment *a = &s->attachment;
	u64 data = a->place.data, offsets = a->place.offsets;
	BOUND(data, 0x7fff);
	BOUND(offsets, 0x7fff);
	if (data && read_memory(s->piece_bytes, data, a->place.data_from))
		return REASON_UNREADABLE;
	if (offsets && read_memory(s->piece_bytes + data, offsets, a->place.offsets_from))
		return REASON_UNREADABLE;
	a->at = 0;
	u64 length = data + offsets;
	begin_piece(&s->piece, a, length);
	if (!take_room(t, length) || bpf_ringbuf_output(&ring, &s->piece, sizeof s->piece + length, QUIETLY))
		return REASON_RING_FULL;
	return 0;
}

/* Copies CHUNK bytes of a large attachment straight into the ring. */
static __always_inline int copy_full_piece(struct attachment *a, u64 from)
{
	struct full_piece *full = bpf_ringbuf_reserve(&ring, sizeof *full, 0);
	if (!full)
		return REASON_RING_FULL;
	begin_piece(&full->piece, a, CHUNK);
	if (read_memory(full->bytes, CHUNK, from)) {
		bpf_ringbuf_discard(full, QUIETLY);
		return REASON_UNREADABLE;
	}
	bpf_ringbuf_submit(full, QUIETLY);
	return 0;
}

/* Copies one piece of a large attachment. */
STEP(copy_piece)
{
	struct scratch *s = scratch();
	u32 id = bpf_get_current_pid_tgid();
	struct thread *t = bpf_map_lookup_elem(&threads, &id);
	if (!s || !t)
		return 1;
	struct attachment *a = &s->attachment;
	u32 at = a->at, data = a->place.data, both = data + (u32)a->place.offsets;
	u32 bytes = (at < data ? data : both) - at;
	u64 from = at < data ? a->place.data_from + at : a->place.offsets_from + (at - data);
	if (at >= both)
		return 1;
	if (bytes > CHUNK)
		bytes = CHUNK;
	u64 length = bytes;
	BOUND(length, 0xffff);
	if (!take_room(t, bytes)) {
		a->failed = REASON_RING_FULL;
	} else if (bytes == CHUNK) {
		a->failed = copy_full_piece(a, from);
	} else {
		begin_piece(&s->piece, a, bytes);
		if (read_memory(s->piece_bytes, length, from))
			a->failed = REASON_UNREADABLE;
		else if (bpf_ringbuf_output(&ring, &s->piece, sizeof s->piece + length, QUIETLY))
			a->failed = REASON_RING_FULL;
	}
	a->at = at + bytes;
	return a->failed != 0;
}

/* Puts the attachment of the scratch into the ring. Returns 0, or why there is no entry. */
static __noinline int attach(struct thread *t)
{
	struct scratch *s = scratch();
	if (!s || !t)
		return REASON_UNREADABLE;
	struct attachment *a = &s->attachment;
	u64 data = a->place.data, offsets = a->place.offsets;
	if (t->attachments >= MOST_ATTACHMENTS)
		return REASON_TOO_MANY;
	if (data > MOST_AT_ONCE || offsets > MOST_AT_ONCE || data + offsets > MOST_AT_ONCE) {
		t->attachments++;
		return REASON_TOO_LARGE;
	}
	if (t->attached + data + offsets > MOST_ATTACHED)
		return REASON_TOO_MANY;
	if (s->attached + data + offsets > MOST_AT_ONCE)
		return a->direction == DIRECTION_READ ? REASON_TOO_MANY : REASON_LATER;
	t->attachments++;
	t->attached += data + offsets;
	s->attached += data + offsets;
	if (a->direction == DIRECTION_READ && !t->reads_own_memory)
		return REASON_OTHER_MEMORY;
	if (data < CHUNK && offsets < CHUNK && data + offsets <= CHUNK)
		return copy_whole(t);
	a->at = a->failed = 0;
	LOOP(MOST_AT_ONCE / CHUNK + 2, copy_piece);
	return a->failed;
}

/* Says that a record has no entry. After REASON_TOO_MANY no later record of the frame has one. */
static __noinline int say_unattached(struct thread *t, int reason)
{
	struct scratch *s = scratch();
	if (!s || !t)
		return 0;
	struct attachment *a = &s->attachment;
	if (reason == REASON_TOO_MANY)
		t->is_over = 1;
	say(MESSAGE_UNATTACHED, t->id, t->opening, a->number, reason, a->record, 0, 0);
	return 0;
}

static __always_inline void begin_attachment(struct thread *t, struct attachment *a, u64 number, u32 record,
					     u32 direction)
{
	a->number = number;
	a->record = record;
	a->direction = direction;
	a->opening = t->opening;
	a->thread = t->id;
}

static __always_inline int has_data(u32 direction, u32 word)
{
	u32 number = word & 0xff;
	if ((word >> 16 & 0x3fff) < TRANSACTION_BYTES)
		return 0;
	if (direction == DIRECTION_WRITE)	/* BC_TRANSACTION, BC_REPLY, both with _SG */
		return number == 0 || number == 1 || number == 17 || number == 18;
	return number == 2 || number == 3;	/* BR_TRANSACTION, also with a security context, and BR_REPLY */
}

/* ---- a write: its bytes are copied at entry, and those beyond some chunks when the driver comes to them */

/* Copies one more chunk of the write, or what can be read of it. */
STEP(copy_commands)
{
	struct scratch *s = scratch();
	u32 id = bpf_get_current_pid_tgid();
	struct thread *t = bpf_map_lookup_elem(&threads, &id);
	if (!s || !t)
		return 1;
	u64 end = t->write_bytes + BEYOND_END, from = t->write_from + t->copied;
	if (t->copied >= end)
		return 1;
	u32 bytes = end - t->copied > CHUNK ? CHUNK : end - t->copied, have = bytes;
	u64 length = bytes;
	BOUND(length, 0xffff);
	if (read_memory(s->chunk_bytes, length, from)) {	/* often the bytes beyond the end are not there */
		if (s->try_again)
			read_chunk(from, 1);
		have = read_pages(from, bytes);
	}
	if (!have && t->has_chunk)
		return 1;
	struct chunk *c = &s->chunk;
	c->commands = have;
	c->base = t->copied;
	c->next = t->copied + have;
	c->late = t->copied < s->taken;
	length = have;
	BOUND(length, 0xffff);
	if (!take_room(t, length) || bpf_ringbuf_output(&ring, c, sizeof *c + length, QUIETLY)) {
		s->failed = REASON_RING_FULL;
		return 1;
	}
	t->has_chunk = 1;
	t->copied += have;
	return have < bytes;
}

/* Copies the next chunks of the write. The driver has taken the bytes before `taken`. Returns 0, or why the frame is
 * lost. */
static __noinline int copy_write(struct thread *t, u64 taken, u32 try_again)
{
	struct scratch *s = scratch();
	if (!s || !t)
		return REASON_UNREADABLE;
	begin_chunk(s, t, DIRECTION_WRITE, t->write_number, bpf_ktime_get_ns());
	s->taken = taken;
	s->try_again = try_again;
	s->failed = 0;
	LOOP(RUN_CHUNKS, copy_commands);
	return s->failed;
}

/* Reads from the process where the data of the record is. Returns 0 if that could be read. */
static __noinline int read_place(struct thread *t, u32 record)
{
	struct scratch *s = scratch();
	if (!s || !t)
		return 1;
	begin_attachment(t, &s->attachment, t->write_number, record, DIRECTION_WRITE);
	u64 from = t->write_from + record + CODE_WORD + DATA_AT;
	return read_memory(&s->attachment.place, sizeof s->attachment.place, from) != 0;
}

/* Copies the attachment of a record of a write. If its memory is not there, or if this run has copied enough, the next
 * run does it, when the driver has taken the record. */
static __noinline int attach_to_write(struct thread *t, u32 record, u32 is_late)
{
	struct scratch *s = scratch();
	if (!s || !t)
		return 0;
	int reason = REASON_UNREADABLE;
	u64 bytes = 0;
	if (!read_place(t, record)) {
		bytes = s->attachment.place.data + s->attachment.place.offsets;
		if (!bytes)
			return 0;
		reason = attach(t);
	}
	if (reason == REASON_UNREADABLE && !is_late) {
		t->attachments -= bytes != 0;		/* it does not count twice */
		t->attached -= bytes;
		reason = REASON_LATER;
	}
	if (reason == REASON_LATER) {
		t->late = record;
		t->has_late = 1;
	} else if (reason) {
		say_unattached(t, reason);
	} else if (is_late) {
		say(MESSAGE_LATE, t->id, t->opening, t->write_number, 0, record, 0, 0);
	}
	return 0;
}

/* Copies the attachment that an earlier run did not, if its record is before `end`. */
static __always_inline void attach_late(struct thread *t, u64 end)
{
	if (!t->has_late)
		return;
	t->has_late = 0;
	if (t->late < end && !t->is_over)
		attach_to_write(t, t->late, 1);
}

/* ---- a read: all its bytes are copied at return */

/* Looks at one record of the chunk. Ends the walk before a record that is not whole in the chunk. */
STEP(copy_record)
{
	struct scratch *s = scratch();
	u32 id = bpf_get_current_pid_tgid();
	struct thread *t = bpf_map_lookup_elem(&threads, &id);
	if (!s || !t)
		return 1;
	struct walk *w = &s->walk;
	struct attachment *a = &s->attachment;
	u64 at = w->at;
	if (at >= CHUNK || at + CODE_WORD > w->bytes)
		return 1;
	BOUND(at, 0x7fff);
	u32 word = *(u32 *)(s->chunk_bytes + at), size = word >> 16 & 0x3fff;
	if (at + CODE_WORD + size > w->bytes)
		return 1;
	begin_attachment(t, a, w->number, w->base + at, DIRECTION_READ);
	w->at = at + CODE_WORD + size;
	if (++w->records > MOST_RECORDS) {
		say_unattached(t, REASON_TOO_MANY);
		return 1;
	}
	if (no_attachments || !has_data(DIRECTION_READ, word))
		return 0;
	__builtin_memcpy(&a->place, s->chunk_bytes + at + CODE_WORD + DATA_AT, sizeof a->place);
	if (!a->place.data && !a->place.offsets)
		return 0;
	int reason = attach(t);
	if (reason)
		say_unattached(t, reason);
	return t->is_over != 0;
}
MANY_STEPS(copy_record)

/* Copies one chunk of the read, which ends with a whole record while its records are looked at. */
STEP(copy_returns)
{
	struct scratch *s = scratch();
	u32 id = bpf_get_current_pid_tgid();
	struct thread *t = bpf_map_lookup_elem(&threads, &id);
	if (!s || !t)
		return 1;
	struct walk *w = &s->walk;
	struct chunk *c = &s->chunk;
	u32 is_last = w->left <= CHUNK;
	w->bytes = is_last ? w->left : CHUNK;
	if (read_chunk(w->from, w->bytes)) {
		w->failed = REASON_UNREADABLE;
		return 1;
	}
	w->at = 0;
	/* Before attachments have used up what the call may take at first. */
	int has_room = take_room(t, w->bytes);
	if (!t->is_over)
		LOOP_MANY(CHUNK / CODE_WORD, copy_record);
	u32 done = t->is_over || is_last ? w->bytes : w->at;
	c->commands = w->bytes;
	c->base = w->base;
	c->next = is_last ? 0 : w->base + done;
	c->late = 0;
	u64 length = w->bytes;
	BOUND(length, 0xffff);
	w->failed = !done ? REASON_BROKEN : !has_room ? REASON_RING_FULL :
		bpf_ringbuf_output(&ring, c, sizeof *c + length, QUIETLY) ? REASON_RING_FULL : 0;
	w->base += done;
	w->from += done;
	w->left -= done;
	return is_last || w->failed;
}

/* Copies what the call read. Returns 0, or why the frame is lost. */
static __noinline int copy_read(struct thread *t, u64 from, u64 bytes, u64 number)
{
	struct scratch *s = scratch();
	if (!s || !t || bytes > MOST_RETURNS)
		return REASON_TOO_LARGE;
	struct walk *w = &s->walk;
	w->number = number;
	w->from = from;
	w->left = bytes;
	w->base = w->failed = w->records = 0;
	t->is_over = t->spent = 0;
	begin_chunk(s, t, DIRECTION_READ, number, bpf_ktime_get_ns());
	LOOP(MOST_CHUNKS, copy_returns);
	return w->failed ? w->failed : w->left ? REASON_TOO_LARGE : 0;
}
#endif
