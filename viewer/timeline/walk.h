/*
 * What the parts of the walk share: walk.c says what it is, packets.c and json_events.c are the formats, and rows.c
 * reads the database. walk.py asks for it all, and answers what only it knows.
 */
#include <sqlite3.h>

#include "growing.h"

/* What a slice is: a call, one that is served, a oneway transaction that is sent, and one that came. */
enum { CALL, SERVED, SENT, CAME, SORTS };

/* Why something begins or ends elsewhere than at its record. */
enum why { NO_WHY, AROUND, THREAD_ENDED, PROCESS_ENDED, AT_END, BEFORE_FROM, NEVER_CAME, WHYS };
enum { END_OF_SLICE, BEGIN_OF_SLICE, END_OF_QUEUE, USES_OF_WHY };

/* The counters of a process. */
enum { BUFFERS, BYTES, ASYNC, REFERENCES, CALLS, BUSY, COUNTERS, ALL_COUNTERS = (1 << COUNTERS) - 1 };

/* What an argument of a slice is, and so how it is written. */
enum form { UNSIGNED, SIGNED, ADDRESS, TO, FROM, VERDICT };
enum { MOST_ARGUMENTS = 11 };

/* The arguments of a slice, in the order of the format; a bit of `has` for each that is there. */
struct values {
	int64_t number[MOST_ARGUMENTS];
	uint32_t has;
	int count;
};

/* How an argument is written: what comes before it. */
struct argument {
	enum form form;
	struct text head;
};

/*
 * What is called, as long as it is remembered or a slice needs it: its key, and what the format made of it, once it was
 * asked for. `own` is what the begin of a slice of each sort has of it, and `more` what ends it.
 */
struct called {
	struct key key;
	int uses, has_interface;
	struct text own[SORTS], more, queue, aidl[SORTS];
};

/* What a thread is in, the innermost last; `values` are there until they are written. */
struct open {
	int64_t place, closer;
	int has_closer, sort;
	uint32_t thread;
	struct called *called;
	struct values *values;
};

/* The track of a thread of the system. */
struct lane {
	wide latest;
	struct open *stack;
	size_t depth, room;
};

/* When a lane of a queue is free again. */
struct queued {
	wide end;
	size_t lane;
};

/* A counter of a process, as the format names it. */
struct counter {
	struct text head, extra, zero;
};

struct process {
	wide latest, ended, now[COUNTERS], shown[COUNTERS];
	int is_shown, has_ended, touched;
	uint32_t first_thread;		/* the first one that is shown; 0: none is */
	struct found strong;
	struct queued *queued;
	struct text *queue;		/* the tracks of its queue, by their lanes */
	size_t queues, queues_room, tracks, tracks_room;
	struct text to[2], from;
	struct counter *counter;
};

struct thread {
	uint32_t process, lane;
	int is_shown;
	struct text head;
	size_t entries, serving;	/* of its lane those that are its own, and those of them that it serves */
};

/* A delivery that a record frees, and the next one that it frees. */
struct freed {
	uint32_t thread;
	int oneway;
	int64_t place;
	uint64_t size;
	struct freed *next;
};

/* ---- rows */

/* The columns of rows, as rows.py has them. */
enum { PLACE, SEQ, TS, UTID };
enum { SEND_CODE = UTID + 1, SEND_SIZE, SEND_HANDLE, SEND_VERDICT, SEND_CLOSER, SEND_REFUSED, SEND_CERTAIN, SEND_FITS,
	SEND_DELIVERY, SEND_RECEIVER, SEND_RECEIVER_SEQ, SEND_NODE, SEND_NODE_CERTAIN, SEND_PTR, SEND_INTERFACE,
	SEND_STACK, SEND_COLUMNS };
enum { CAME_KIND = UTID + 1, CAME_CODE, CAME_FLAGS, CAME_SIZE, CAME_PTR, CAME_COOKIE, CAME_SENDER_PID, CAME_FREED_BY,
	CAME_VERDICT, CAME_CLOSER, CAME_SEND, CAME_SENDER, CAME_SENDER_SEQ, CAME_CERTAIN, CAME_FITS, CAME_INTERFACE,
	CAME_COLUMNS };
enum { RECORD_KIND = UTID + 1, RECORD_HANDLE, RECORD_COOKIE, RECORD_VALUE, RECORD_REFUSED, RECORD_COLUMNS };
enum { COLUMNS_OF_ROW = SEND_COLUMNS };

struct row {
	int64_t number[COLUMNS_OF_ROW];
	uint32_t has;
};

static inline int has(const struct row *row, int column)
{
	return row->has >> column & 1;
}

/* What rows are of, in the order of those of one place. */
enum { OF_SEND, OF_DELIVERY, OF_RECORD, STREAMS };

struct stream {
	sqlite3_stmt *statement;
	int columns, is_there;
	struct row row;
};

struct walk;

/* Begins to read; goes to the next row of a stream. What fails is told by `status` of the walk. */
void rows_begin(struct walk *walk, const char *path, const char *const *statements);
void rows_next(struct walk *walk, struct stream *stream);

/* The stream whose row comes next; NULL if there is none. */
struct stream *rows_first(struct walk *walk);

/* ---- the walk */

/* What walk.py is asked, in the order in which that names it. */
enum ask { ASK_CALLED, ASK_QUEUE_NAME, ASK_AIDL, ASK_TO, ASK_FROM, ASK_VERDICT, ASK_COUNTERS, ASK_QUEUE_TRACK, ASK_STACK,
	ASK_WHY, ASK_NEW, ASK_RECORD, ASK_END_FRAME, TELL_WRITTEN, TELL_DONE };
enum { MOST_TEXTS = 3 * COUNTERS };

/* The bits of an answer. */
enum { HAS_NEW = 1, HAS_INTERFACE = 2 };

/* The last number of a key says what else matters: an interface, or one of these. */
enum { NO_INTERFACE = -1, ONLY_CODE = -2 };

/* What has a name: a code at an object, and an object. */
enum { NAMED_CODE = 1, NAMED_OBJECT };

/* What is known of the walk when it begins, in the order in which walk.py has it. Of the end there are two halves. */
struct given {
	int64_t is_android, is_timed, has_first, has_last, begins_at_end, first, last, base, ns, end, end_high, stretch,
		recording, remembered, threads, processes, lanes, reply, free_buffer, acquire, dead_binder,
		frozen_binder, spam_suspect;
};

enum status { GOES_ON, IS_PAST, NOT_SHOWN, NO_MEMORY, NO_ROWS };

/* What is counted, in the order in which walk.py names it. */
enum { SLICES, QUEUE_SLICES, FLOWS, COUNTER_EVENTS, INSTANTS, PAIRS_WITHOUT_FLOW, EARLY_DELIVERIES, UNTIMED, RAISED,
	COUNTS };

/* What an event of a queue says besides: why it ends at its end, or its delivery and how many fit. */
struct of_queue {
	enum why why;
	int64_t delivery, fits;
};

/* A format. `ns` is a time of the axis; of what may be missing there is NULL. */
struct format {
	void (*begin)(struct walk *walk, const struct thread *thread, wide ns, int sort, struct called *called,
		      const struct values *values, const int64_t *flow, const int64_t *stack, enum why why);
	void (*end)(struct walk *walk, const struct thread *thread, wide ns, int sort, struct called *called, enum why why,
		    const int64_t *stack);
	void (*count)(struct walk *walk, uint32_t process, wide ns, const int *changed, int count);
	void (*queue)(struct walk *walk, const struct thread *thread, struct called *called, size_t lane, int64_t place,
		      wide begin, wide end, const struct of_queue *more);
	void (*flush)(struct walk *walk);
	const struct bytes *(*time_of)(struct walk *walk, wide ns);	/* the text of a time; NULL: there is none */
};

extern const struct format packets_format, json_format;

/* From a time on another clock is ahead by so much. */
struct ahead {
	wide since, by;
};

struct walk {
	struct given given;
	const struct format *format;
	enum status status;

	/* the database */
	sqlite3 *database;
	struct stream stream[STREAMS];

	/* the axis */
	wide ns, end, instant_at;
	struct ahead *ahead;
	size_t clocks, clocks_room;

	/* who is there, each by its number, from 1 on; lanes from 0 on */
	struct thread *thread;
	struct process *process;
	struct lane *lane;

	/* what goes on */
	struct found sent, oneways, freed, frees, named, remembered;
	uint32_t *touched;
	size_t touched_count, touched_room;
	int64_t seq, stretch_end;
	int has_seq, has_instants, is_live;
	wide entered;
	int64_t count[COUNTS];

	/* what was asked */
	struct bytes answer;
	size_t ends[MOST_TEXTS];
	int texts, has_new;
	struct text why[USES_OF_WHY][WHYS], verdict[5];
	struct found stacks;

	/* what is written: the arguments of each sort of slices, and what waits to be written */
	struct argument argument[SORTS][MOST_ARGUMENTS];
	int arguments[SORTS];
	struct bytes out, body;
	size_t parts, last_event;	/* the parts of packets, and where the last event begins */
	wide shown_at;
	struct text event_begin;	/* what stands before the time of an event */
	struct bytes at;		/* what stands there at the time `shown_at` */
	int has_at, takes_more, has_written;
};

/* Asks, with some numbers. Returns the bits of the answer, whose texts are there until the next one. */
int walk_ask(struct walk *walk, enum ask what, const int64_t *numbers, size_t count);
#define ASK(walk, what, ...) \
	walk_ask(walk, what, (int64_t[]){ __VA_ARGS__ }, sizeof((int64_t[]){ __VA_ARGS__ }) / sizeof(int64_t))

/* A text of the answer; and one that is asked for when it is first used. */
void walk_take_text(struct walk *walk, int number, struct text *text);
const struct text *walk_text(struct walk *walk, struct text *text, enum ask what, int64_t number, int64_t other);
const struct text *walk_why(struct walk *walk, int use, enum why why);
void walk_name_queue(struct walk *walk, struct called *called);

/* An argument that is a text. */
const struct text *walk_argument(struct walk *walk, enum form form, int64_t value);

/* Hands over what is to be written. */
void walk_write(struct walk *walk);

/* The text of the time of instants; NULL if the format has none. */
const struct bytes *walk_time(struct walk *walk);

/* One more text of the answer. */
void walk_add_answer(struct walk *walk, const unsigned char *data, size_t length);

/* What walk.py has made: a packet, an event of a packet, an event of JSON. */
void walk_packet(struct walk *walk, const unsigned char *data, size_t length);
void walk_event(struct walk *walk, const unsigned char *data, size_t length);
void walk_line(struct walk *walk, const unsigned char *data, size_t length);

/* An instant that was told. */
void walk_instant(struct walk *walk);

/* What is given before the walk: who is there, from 1 on, of each thread its process and its lane; who is shown. */
void walk_begin(struct walk *walk, const struct given *given);
void walk_set_text(struct walk *walk, struct text *text, const unsigned char *data, size_t length);
void walk_set_thread(struct walk *walk, int64_t utid, int64_t upid, int64_t lane);
void walk_show_thread(struct walk *walk, int64_t utid, const unsigned char *head, size_t length);
void walk_set_ended(struct walk *walk, int64_t upid, int64_t ts);
void walk_add_argument(struct walk *walk, int64_t sort, int64_t form, const unsigned char *head, size_t length);
void walk_add_clock(struct walk *walk, int64_t since, int64_t by);
void walk_add_name(struct walk *walk, int64_t code, int64_t upid, int64_t ptr, int64_t what);

/* Goes through the rows before a place. */
enum status walk_to(struct walk *walk, int64_t limit);

/* Goes to the place of a finding, behind the rows there, and to its frame. */
enum status walk_to_finding(struct walk *walk, int64_t place, int64_t seq, const int64_t *ts, int64_t utid);

/*
 * Goes to what is not a record: an end of threads and of a process (0: none), or something that is missing. It belongs to the
 * stretch of the row or the finding that comes next; behind all of them, to a stretch of its own.
 */
enum status walk_to_mark(struct walk *walk, int64_t place, int64_t next_finding, const int64_t *ts, int64_t upid,
			 enum why why, const int64_t *threads, size_t count);

/* Ends the walk, and what is open. */
void walk_end(struct walk *walk);

/* ---- orders.c: what walk.py and the walk say to one another */

/* Tells walk.py of something, or asks it. */
void orders_tell(enum ask what, const int64_t *numbers, size_t count, const unsigned char *data, size_t length);

/* Follows orders, up to an answer. Returns its bits. */
int orders_follow(struct walk *walk);
