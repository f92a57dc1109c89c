/* raced OUT: gives the recorder's loader frames as they come if another thread of the caller changes a write between the
 * copy of its commands and the driver: what the programs in the kernel tell of records is of others than those of the
 * copy. Each is lost as broken, with its process and thread; and no frame is lost that only looks like one of them. See
 * ring. */
#include "kit.h"
#include "made_frame.h"
#include "parts.h"
#include "redact.h"
#include "window.h"

enum {
	HONEST = 1, CULPRIT,		/* openings, each of a process and a thread of its own */
	NOTHING = -1,			/* no note, no piece */
	DATA = 8,
	OPAQUE = 1u << 30 | 200u << 16 | 'c' << 8 | 0x7f,	/* a code word that nobody knows, of 200 bytes */
};

/* A frame: two records, and what is told of records. Then comes the same frame as it is if nobody changes a thing. */
struct told {
	const char *what;
	u32 direction, words[2];	/* of the records: BC_ENTER_LOOPER has no payload */
	u32 consumed;
	int at, got, note, reason;	/* a piece of so many bytes, and a note, of records at these places */
	int at_two, note_two;		/* one more of each */
	u32 data;			/* what the pieces say of their size */
};

#define TWO_SENDS .direction = DIRECTION_WRITE, .words = { BC_TRANSACTION, BC_TRANSACTION }, .consumed = 2 * RECORD
#define TWO_READS .direction = DIRECTION_READ, .words = { BR_REPLY, BR_REPLY }, .consumed = 2 * RECORD
#define LOOPERS .direction = DIRECTION_WRITE, .words = { BC_ENTER_LOOPER, BC_ENTER_LOOPER }, .consumed = 8
#define NO_MORE .at_two = NOTHING, .note_two = NOTHING, .data = DATA
#define NO_NOTE .note = NOTHING, NO_MORE
#define NO_PIECE .at = NOTHING, .got = 0, NO_MORE

static const struct told lies[] = {
	{ "data of an opaque record", DIRECTION_WRITE, { OPAQUE, BC_TRANSACTION }, 204 + RECORD, .at = 0, .got = DATA,
	  NO_NOTE },
	{ "data of a record without any", LOOPERS, .at = 4, .got = DATA, NO_NOTE },
	{ "data inside a record", TWO_SENDS, .at = 8, .got = DATA, NO_NOTE },
	{ "data of another size", TWO_SENDS, .at = 0, .got = DATA + 8, .note = NOTHING, .at_two = NOTHING,
	  .note_two = NOTHING, .data = DATA + 8 },
	{ "a note inside a record", TWO_SENDS, .note = 8, .reason = REASON_UNREADABLE, NO_PIECE },
	{ "a note at a record that is no send", LOOPERS, .note = 4, .reason = REASON_RING_FULL, NO_PIECE },
	{ "too many inside a record", TWO_SENDS, .note = RECORD + 4, .reason = REASON_TOO_MANY, NO_PIECE },
	{ "late inside a record", TWO_SENDS, .note = 4, .reason = REASON_NONE, NO_PIECE },
	{ "data after too many", TWO_SENDS, .at = RECORD, .got = DATA, .note = 0, .reason = REASON_TOO_MANY, NO_MORE },
	{ "a note after too many", TWO_SENDS, .at = NOTHING, .got = 0, .note = 0, .reason = REASON_TOO_MANY,
	  .at_two = NOTHING, .note_two = RECORD, .data = DATA },
	{ "notes that fall", TWO_SENDS, .at = NOTHING, .got = 0, .note = RECORD, .reason = REASON_UNREADABLE,
	  .at_two = NOTHING, .note_two = 0, .data = DATA },
	{ "a cut record", TWO_SENDS - 1, .at = 0, .got = DATA, NO_NOTE },
	{ "more than was copied", TWO_SENDS + 4, .at = 0, .got = DATA, NO_NOTE },
	{ "returns in a write", DIRECTION_WRITE, { BR_REPLY, BR_REPLY }, 2 * RECORD, .at = 0, .got = DATA, NO_NOTE },
	{ "no direction", DIRECTION_READ + 1, { BR_REPLY, BR_REPLY }, 2 * RECORD, .at = 0, .got = DATA, NO_NOTE },
	{ "data of a read inside a record", TWO_READS, .at = 4, .got = DATA, NO_NOTE },
};

static const struct told truths[] = {
	{ "data of both", TWO_SENDS, .at = 0, .got = DATA, .note = NOTHING, .at_two = RECORD, .note_two = NOTHING,
	  .data = DATA },
	{ "data of both, read", TWO_READS, .at = 0, .got = DATA, .note = NOTHING, .at_two = RECORD, .note_two = NOTHING,
	  .data = DATA },
	{ "data that is not whole", TWO_SENDS, .at = 0, .got = DATA - 1, .note = 0, .reason = REASON_RING_FULL, NO_MORE },
	{ "data of what is not consumed", TWO_SENDS - RECORD, .at = RECORD, .got = DATA, NO_NOTE },
	{ "a note of what is not consumed", TWO_SENDS - RECORD, .note = RECORD, .reason = REASON_UNREADABLE, NO_PIECE },
	{ "nothing consumed", TWO_SENDS - 2 * RECORD, .at = 0, .got = DATA, .note = RECORD,
	  .reason = REASON_TOO_MANY, NO_MORE },
	{ "too many, from a record without data on", LOOPERS, .note = 4, .reason = REASON_TOO_MANY, NO_PIECE },
	{ "too many, from a send on", TWO_SENDS, .at = 0, .got = DATA, .note = RECORD, .reason = REASON_TOO_MANY, NO_MORE },
	{ "late data", TWO_SENDS, .at = RECORD, .got = DATA, .note = RECORD, .reason = REASON_NONE, NO_MORE },
	{ "two notes", TWO_SENDS, .at = NOTHING, .got = 0, .note = 0, .reason = REASON_OTHER_MEMORY, .at_two = NOTHING,
	  .note_two = RECORD, .data = DATA },
};

static u64 last;		/* the number that was taken last */

static struct message head(u32 type, const struct told *told, u32 opening)
{
	return head_of(type, told->direction, last, opening, opening);
}

/* The records of the frame, each of whose sends has DATA bytes of data. */
static void hear_commands(const struct told *told, u32 opening)
{
	static const union {
		struct binder_transaction_data data;
		u8 bytes[_IOC_SIZE(OPAQUE)];
	} payload = { { .data_size = DATA } };
	for (int i = 0; i < 2; i++)
		made_record(told->words[i], &payload, _IOC_SIZE(told->words[i]));
	made_begun(window_hear, head(MESSAGE_CHUNK, told, opening), NULL, 0);
}

static void hear_piece(const struct told *told, u32 opening, int record, u32 got)
{
	struct {
		struct piece piece;
		u8 bytes[64];
	} message = { .piece = { .head = head(MESSAGE_PIECE, told, opening), .record = (u32)record, .data = told->data,
				 .bytes = got } };
	if (record != NOTHING)
		window_hear(&message, sizeof message.piece + got);
}

static void hear_note(const struct told *told, u32 opening, int record, u32 reason)
{
	if (record != NOTHING)
		made_event(window_hear, head(reason ? MESSAGE_UNATTACHED : MESSAGE_LATE, told, opening), reason, (u32)record, 0);
}

/* What comes of a read comes before its commands. */
static void hear(const struct told *told, u32 opening)
{
	last++;
	if (told->direction == DIRECTION_WRITE)
		hear_commands(told, opening);
	hear_piece(told, opening, told->at, (u32)told->got);
	hear_piece(told, opening, told->at_two, DATA);
	hear_note(told, opening, told->note, (u32)told->reason);
	hear_note(told, opening, told->note_two, REASON_UNREADABLE);
	if (told->direction != DIRECTION_WRITE)
		hear_commands(told, opening);
	if (told->direction != DIRECTION_READ)
		made_written(window_hear, head(MESSAGE_WRITTEN, told, opening), told->consumed);
	while (window_settle())
		continue;
}

static void a_lie(const struct told *told)
{
	char line[128];
	u64 lost = window_lost_because(REASON_BROKEN), frames = window_frames();
	hear(told, CULPRIT);
	snprintf(line, sizeof line, " lost %llu device=0 process=1002 thread=1002 why=broken\n", (unsigned long long)last);
	should(window_lost_because(REASON_BROKEN) == lost + 1 && window_frames() == frames, told->what, 0);
	read_side_list();
	should(times(line) == 1, "the line of a frame that is lost", (double)last);
}

static void a_truth(const struct told *told)
{
	u64 frames = window_frames();
	hear(told, HONEST);
	should(window_frames() == frames + 1, told->what, 0);
}

int main(int count, char **words)
{
	if (count != 2 || parts_begin(words[1], 1 << 20, 0))
		fail("usage: raced OUT");
	redact_begin(0);
	for (u32 opening = HONEST; opening <= CULPRIT; opening++)
		made_process(opening, 1000 + opening, 1, "caller", MET_FROM_START);
	for (u32 i = 0; i < sizeof lies / sizeof *lies; i++) {
		a_lie(lies + i);
		a_truth(truths);
	}
	for (u32 i = 0; i < sizeof truths / sizeof *truths; i++)
		a_truth(truths + i);
	read_side_list();
	should(times(" unattached ") == 4, "records without an entry", times(" unattached "));
	should(times(" late ") == 1, "late entries", times(" late "));
	if (parts_end())
		fail("the files can't be written");
	return failed;
}
