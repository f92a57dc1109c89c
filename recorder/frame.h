/* A frame: it is put together from its messages, and written into the capture. */
#ifndef RECORDER_FRAME_H
#define RECORDER_FRAME_H
#include "common.h"
#include "messages.h"
#include "names.h"

/* Bytes of an attachment that are still in the ring. */
struct lent {
	struct lent *next;
	const u8 *bytes;
	u64 count;
};

/* The attachment of one record. */
struct entry {
	struct entry *next;
	u32 record, data, offsets;
	u64 got;			/* how many of its bytes have come */
	u8 *bytes;			/* NULL while they are in the ring: */
	struct lent *lent, *last_lent;	/* there, in order */
	u8 own[];			/* most entries have their bytes here */
};

/* What the side list says of a record: that its entry was read late, or why there is no entry. */
struct note {
	struct note *next;
	u32 record, reason;		/* REASON_NONE: read late */
};

struct frame {
	u64 number, time;
	u32 direction;
	struct who who;
	u8 *commands;
	u64 bytes, room;		/* of the commands: how many there are, and how many were taken for them */
	u32 expected;			/* where the next chunk begins */
	int is_broken;			/* a chunk is missing */
	int is_late;			/* the commands were read late */
	int is_refused;			/* the driver refused the last send, and its data is left out if it is much */
	u32 stack;			/* of its call, as stacks.h numbers it; 0 if there is none */
	struct entry *entries, *last_entry;	/* in the order of their records */
	struct note *notes, *last_note;
	u64 memory;			/* what all of it takes */
};

struct frame *frame_make(u64 number);
void frame_free(struct frame *frame);
/* Adds a chunk. Returns 1 if it is the last one of its frame. */
int frame_add_chunk(struct frame *frame, const struct chunk *chunk);
/* Adds a piece. If the ring lends it, a large attachment stays there. Returns 1 then. */
int frame_add_piece(struct frame *frame, const struct piece *piece, int is_lent);
/* Copies what is still in the ring. */
void frame_keep(struct frame *frame);
/* Copies bytes of an entry that have come, from `at` on. */
void entry_read(const struct entry *entry, u64 at, void *to, u64 count);
void frame_add_note(struct frame *frame, u32 record, u32 reason);
/* Whether the last send of the first `consumed` bytes has so much data that it is left out if the driver refused it. */
int frame_is_in_doubt(const struct frame *frame, u64 consumed);
/* Writes the first `consumed` bytes and their entries, and the lines of the side list. Returns REASON_NONE; or, if nothing
 * is written, why the frame is lost, or REASON_LATER: the next file is not begun yet, and the call is due once more. */
enum reason frame_write(struct frame *frame, u64 consumed);
/* How many entries were written in all frames. */
u64 frame_entries_written(void);
/* How many more there would be without the bound on what a call may attach. */
u64 frame_entries_left_out(void);
#endif
