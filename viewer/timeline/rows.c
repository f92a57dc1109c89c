/* Reads the rows of the walk: those of three statements, each in the order of places. */
#include "walk.h"
#include "../database/packed.h"

/* One thread uses the database, and nobody writes it. */
enum { OPENED = SQLITE_OPEN_READONLY | SQLITE_OPEN_URI | SQLITE_OPEN_NOMUTEX };

static const int COLUMNS_OF[STREAMS] = { SEND_COLUMNS, CAME_COLUMNS, RECORD_COLUMNS };

/* The columns that each row has. */
static const uint32_t NEEDED[STREAMS] = {
	[OF_SEND] = 1u << PLACE | 1u << SEQ | 1u << UTID,
	[OF_DELIVERY] = 1u << PLACE | 1u << SEQ | 1u << UTID | 1u << CAME_KIND,
	[OF_RECORD] = 1u << PLACE | 1u << SEQ | 1u << UTID | 1u << RECORD_KIND,
};

static void fail(struct walk *walk, int status)
{
	if (walk->status == GOES_ON)
		walk->status = status == SQLITE_NOMEM ? NO_MEMORY : NO_ROWS;
}

static void take_columns(struct stream *stream)
{
	struct row *row = &stream->row;
	row->has = 0;
	for (int column = 0; column < stream->columns; column++) {
		int is_there = sqlite3_column_type(stream->statement, column) != SQLITE_NULL;
		row->number[column] = is_there ? sqlite3_column_int64(stream->statement, column) : 0;
		row->has |= (uint32_t)is_there << column;
	}
}

void rows_next(struct walk *walk, struct stream *stream)
{
	int status = sqlite3_step(stream->statement);
	stream->is_there = status == SQLITE_ROW;
	if (status != SQLITE_ROW && status != SQLITE_DONE)
		fail(walk, status);
	if (!stream->is_there)
		return;
	take_columns(stream);
	uint32_t needed = NEEDED[stream - walk->stream];
	const int64_t utid = stream->row.number[UTID];
	if ((stream->row.has & needed) != needed || utid < 1 || utid > walk->given.threads)
		fail(walk, SQLITE_CORRUPT);
}

static void prepare(struct walk *walk, struct stream *stream, const char *statement, int columns)
{
	int status = sqlite3_prepare_v2(walk->database, statement, -1, &stream->statement, NULL);
	stream->columns = columns;
	if (status)
		fail(walk, status);
	else if (sqlite3_column_count(stream->statement) != columns)
		fail(walk, SQLITE_MISMATCH);
	else
		rows_next(walk, stream);
}

void rows_begin(struct walk *walk, const char *path, const char *const *statements)
{
	int status = sqlite3_open_v2(path, &walk->database, OPENED, NULL);
	if (!status)
		status = packed_module_add(walk->database);
	if (!status)
		status = sqlite3_exec(walk->database, "PRAGMA cache_size=-16384; PRAGMA temp_store=FILE", NULL, NULL, NULL);
	if (status)
		fail(walk, status);
	for (int of = 0; of < STREAMS && walk->status == GOES_ON; of++)
		prepare(walk, &walk->stream[of], statements[of], COLUMNS_OF[of]);
}

struct stream *rows_first(struct walk *walk)
{
	struct stream *first = NULL;
	for (int of = 0; of < STREAMS; of++) {
		struct stream *stream = &walk->stream[of];
		if (stream->is_there && (!first || stream->row.number[PLACE] < first->row.number[PLACE]))
			first = stream;
	}
	return first;
}
