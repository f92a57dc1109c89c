/*
 * The lines of a side list. Nearly all are of frames and of their calls, and are loaded here. The others are for
 * viewer/database/side_list.py, which takes longer for a line: a file gets them, and before each a line of the last
 * frame that comes before it in the list, since some of them mean the number of that frame.
 */
#include <errno.h>
#include <stdint.h>
#include <stdio.h>
#include <string.h>

#include "load.h"
#include "side_reader.h"

struct side_list {
	const char *path, *others_path;
	struct side_reader reader;
	FILE *others;
	sqlite3 *database;
	sqlite3_stmt *add_time, *add_call;
	struct packer *times;		/* NULL: times are no packed rows */
	struct side_frame last;		/* the last frame that came, */
	int is_due;			/* if OTHERS has not got it */
};

/* Whether the line is one of frames, from its beginning to its end, with times that SQLite has. */
static int is_of_frames(const struct side_reader *reader, struct side_frame *first)
{
	if (!side_first_frame(reader, first))
		return 0;
	struct side_frame last = *first;
	do
		if (last.time > INT64_MAX)
			return 0;
	while (side_next_frame(&last));
	return last.at == last.end;
}

/* Whether the line is one of the stack of a call. */
static int is_of_call(const struct side_reader *reader, uint64_t *number, uint64_t *stack)
{
	uint64_t time;
	const char *end = reader->line + reader->length, *at = side_after_number(reader->line, end, &time);
	at = side_after_number(side_after_word(at, end, " call "), end, number);
	at = side_after_number(side_after_word(at, end, " stack="), end, stack);
	return at == end && time <= INT64_MAX;
}

static void add(struct side_list *list, sqlite3_stmt *to, uint64_t first, uint64_t second)
{
	sqlite3_bind_int64(to, 1, (sqlite3_int64)first);
	sqlite3_bind_int64(to, 2, (sqlite3_int64)second);
	if (sqlite3_step(to) != SQLITE_DONE)
		stop_for(list->database);
	sqlite3_reset(to);
}

static void add_frame(struct side_list *list, const struct side_frame *frame)
{
	if (list->times)
		packer_add(list->times, 3, (int64_t[]){ (int64_t)frame->number, (int64_t)frame->time });
	else
		add(list, list->add_time, frame->number, frame->time);
}

static void add_frames(struct side_list *list, struct side_frame frame)
{
	do
		add_frame(list, &frame);
	while (side_next_frame(&frame));
	list->last = frame;
	list->is_due = 1;
}

static void hand_frame_on(struct side_list *list)
{
	if (list->others && list->is_due && fprintf(list->others, "%llu frame %llu\n", (unsigned long long)list->last.time,
						    (unsigned long long)list->last.number) < 0)
		stop("%s: %s", list->others_path, strerror(errno));
	list->is_due = 0;
}

static void hand_line_on(struct side_list *list, int is_whole)
{
	hand_frame_on(list);
	if (!list->others)
		return;
	if (fwrite(list->reader.line, 1, list->reader.length, list->others) < list->reader.length
	    || (is_whole && putc('\n', list->others) < 0))
		stop("%s: %s", list->others_path, strerror(errno));
}

static void take_line(struct side_list *list)
{
	struct side_frame first;
	uint64_t number, stack;
	if (is_of_frames(&list->reader, &first))
		add_frames(list, first);
	else if (list->others && is_of_call(&list->reader, &number, &stack))
		add(list, list->add_call, number, stack);
	else
		hand_line_on(list, 1);
}

/* After the last line the others get what was cut of one, and the last frame. */
static void read_lines(struct side_list *list)
{
	enum side_came came;
	while ((came = side_next_line(&list->reader)) == SIDE_LINE)
		take_line(list);
	if (came == SIDE_TOO_LONG)
		stop("%s has a line of more than %d bytes", list->path, SIDE_LONGEST);
	if (came == SIDE_NO_MEMORY)
		stop("out of memory");
	if (came == SIDE_UNREADABLE)
		stop("%s: %s", list->path, strerror(errno));
	if (came == SIDE_CUT)
		hand_line_on(list, 0);
	hand_frame_on(list);
}

void load_side_list(sqlite3 *database, const char *path, struct packed_table *times, const char *others)
{
	struct packer packer;
	struct side_list list = { .path = path, .others_path = others, .database = database };
	if (!side_open(&list.reader, path))
		stop("%s: %s", path, strerror(errno));
	if (others && !(list.others = fopen(others, "wxe")))
		stop("%s: %s", others, strerror(errno));
	if (times) {
		packer_begin(&packer, times->packed, times->columns, times->repeats, times->told);
		list.times = &packer;
	}
	list.add_time = prepared(database, "INSERT OR REPLACE INTO side_time(seq, ts) VALUES (?, ?)");
	list.add_call = prepared(database, "INSERT OR REPLACE INTO side_call(seq, stack) VALUES (?, ?)");
	read_lines(&list);
	sqlite3_finalize(list.add_time);
	sqlite3_finalize(list.add_call);
	if (times)
		times->rises = packer_end(&packer);
	if (list.others && fclose(list.others))
		stop("%s: %s", others, strerror(errno));
	side_close(&list.reader);
}
