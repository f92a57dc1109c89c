/*
 * The rows of the stream, as binder_tables writes them with --lines: those of the files of tables, but that the highest
 * byte of a mask is the sort of the row. Who writes them is proved, yet a pipe may be cut, and may be somebody else's:
 * so nothing is read of a row that is not there.
 */
#include <endian.h>
#include <errno.h>
#include <string.h>
#include <unistd.h>

#include "lines.h"

/* So many bytes are read at a time: few where a sanitizer looks, so that it sees what is read behind them. A text has no
 * more than a file of a capture. */
#ifdef __SANITIZE_ADDRESS__
enum { PIECE = 16 };
#else
enum { PIECE = 1 << 18 };
#endif
enum { LONGEST_TEXT = (1 << 30) + 64, SORT_BIT = 56 };

#define BIT(column) ((uint64_t)1 << (column))
#define ALL(columns) (BIT(columns) - 1)

/* Of each sort so many columns; those that each row has, and those that are texts. */
static const struct {
	int columns;
	uint64_t due, texts;
} sorts[] = {
	[THREAD] = { THREAD_COLUMNS, ALL(THREAD_COLUMNS), 0 },
	[INTERFACE] = { NAME_COLUMNS, ALL(NAME_COLUMNS), BIT(NAME_TEXT) },
	[RECORD] = { RECORD_COLUMNS, BIT(PLACE) | BIT(SEQ) | BIT(UTID) | BIT(KIND), 0 },
	[OBJECT] = { OBJECT_COLUMNS, BIT(OBJECT_PLACE) | BIT(OBJECT_IDX) | BIT(OBJECT_OFFSET), 0 },
	[WHOLE] = { WHOLE_COLUMNS, ALL(ENTRY_PLACE), BIT(RECORD_BYTES) | BIT(ENTRY_BYTES) },
	[SERVICE] = { NAME_COLUMNS, ALL(NAME_COLUMNS), BIT(NAME_TEXT) },
	[MISSING] = { 1, 1, 0 },
	[ENDING] = { ENDING_COLUMNS, BIT(PARTS) | BIT(END_STATUS), 0 },
};

/* What was read, and the row in it: where it begins, and how long it is as far as it is taken. */
static struct text came;
static size_t begin, taken;

void stop_for_stream(void)
{
	stop(FAILED, "listing: the rows of the capture are not whole");
}

/* Reads more. Returns whether there was more. */
static bool read_on(int stream)
{
	text_reserve(&came, PIECE);
	ssize_t count;
	do
		count = read(stream, came.bytes + came.length, PIECE);
	while (count < 0 && errno == EINTR);
	if (count < 0)
		stop(FAILED, "fault Read");
	came.length += (size_t)count;
	return count > 0;
}

/* Sees to it that the row has so many bytes more. */
static bool is_there(int stream, size_t more)
{
	if (came.length - begin - taken >= more)
		return true;
	if (begin) {
		came.length -= begin;
		memmove(came.bytes, came.bytes + begin, came.length);
		begin = 0;
	}
	while (came.length - taken < more)
		if (!read_on(stream))
			return false;
	return true;
}

static uint64_t take_number(void)
{
	uint64_t number;
	memcpy(&number, came.bytes + begin + taken, sizeof number);
	taken += sizeof number;
	return le64toh(number);
}

/* Takes the columns of a row with texts. Where a text stands is known when all of the row is there. */
static void take_with_texts(int stream, struct row *row, uint64_t texts)
{
	size_t at[RECORD_COLUMNS];
	for (uint64_t left = row->mask; left; left &= left - 1) {
		int column = __builtin_ctzll(left);
		if (!is_there(stream, sizeof(uint64_t)))
			stop_for_stream();
		row->column[column] = take_number();
		at[column] = taken;
		if (!(texts >> column & 1))
			continue;
		if (row->column[column] > LONGEST_TEXT || !is_there(stream, row->column[column]))
			stop_for_stream();
		taken += row->column[column];
	}
	for (uint64_t left = row->mask & texts; left; left &= left - 1)
		row->text[__builtin_ctzll(left)] = came.bytes + begin + at[__builtin_ctzll(left)];
}

static void take_numbers(int stream, struct row *row)
{
	if (!is_there(stream, (size_t)__builtin_popcountll(row->mask) * sizeof(uint64_t)))
		stop_for_stream();
	for (uint64_t left = row->mask; left; left &= left - 1)
		row->column[__builtin_ctzll(left)] = take_number();
}

bool take_row(int stream, struct row *row)
{
	begin += taken;
	taken = 0;
	if (!is_there(stream, 1))
		return false;
	if (!is_there(stream, sizeof(uint64_t)))
		stop_for_stream();
	uint64_t mask = take_number(), sort = mask >> SORT_BIT;
	row->sort = (enum sort)sort;
	row->mask = mask & ALL(SORT_BIT);
	if (sort < THREAD || sort > ENDING || row->mask >> sorts[sort].columns
	    || (row->mask & sorts[sort].due) != sorts[sort].due)
		stop_for_stream();
	if (sorts[sort].texts)
		take_with_texts(stream, row, sorts[sort].texts);
	else
		take_numbers(stream, row);
	return true;
}
