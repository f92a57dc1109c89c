/* Packs the rows of a raw table while they come. */
#include <errno.h>
#include <fcntl.h>
#include <stdlib.h>
#include <string.h>
#include <unistd.h>

#include "load.h"
#include "packed_index.h"

enum { READ_AT_ONCE = 1 << 20, LONGEST_ROW = 8 * (MOST_COLUMNS + 1) };

/* Bytes of a file from `at` on, as far as they have come. */
struct stream {
	const char *path;
	int file, has_ended;
	size_t at, length;
	unsigned char bytes[READ_AT_ONCE + LONGEST_ROW];
};

/* Reads on until a whole row is there, or the end of the file. */
static void fill(struct stream *stream)
{
	memmove(stream->bytes, stream->bytes + stream->at, stream->length - stream->at);
	stream->length -= stream->at;
	stream->at = 0;
	while (!stream->has_ended && stream->length < LONGEST_ROW) {
		ssize_t came = read(stream->file, stream->bytes + stream->length, READ_AT_ONCE);
		if (came < 0 && errno != EINTR)
			stop("%s: %s", stream->path, strerror(errno));
		stream->has_ended = came == 0;
		stream->length += came > 0 ? (size_t)came : 0;
	}
}

static uint64_t take(struct stream *stream)
{
	uint64_t number = 0;
	if (stream->length - stream->at < 8)
		stop("%s ends within a row", stream->path);
	for (int byte = 7; byte >= 0; byte--)
		number = number << 8 | stream->bytes[stream->at + (size_t)byte];
	stream->at += 8;
	return number;
}

/* Makes the indexes that are made once for all. */
static void make_indexes(const struct packed_table *table)
{
	struct packed_file file = { 0 };
	int status = SQLITE_OK;
	for (int number = 0; status == SQLITE_OK && number < table->indexes; number++) {
		if (!table->is_made[number])
			continue;
		struct packed_index index = { .column = table->index_column[number] };
		char *path = sqlite3_mprintf("%s.%d", table->packed, index.column);
		status = !path ? SQLITE_NOMEM : file.bytes ? SQLITE_OK : packed_map(&file, table->packed);
		if (status == SQLITE_OK)
			status = packed_index_make(&index, &file);
		if (status == SQLITE_OK)
			status = packed_index_write(&index, path);
		packed_index_drop(&index);
		sqlite3_free(path);
	}
	packed_unmap(&file);
	if (status && status != SQLITE_TOOBIG)
		stop("%s: an index of it can't be made: %s", table->packed, sqlite3_errstr(status));
}

void pack_rows(struct packed_table *table)
{
	struct stream *stream = malloc(sizeof *stream);
	if (!stream)
		stop("out of memory");
	stream->path = table->rows;
	stream->at = stream->length = 0;
	stream->has_ended = 0;
	stream->file = open(table->rows, O_RDONLY | O_CLOEXEC);
	if (stream->file < 0)
		stop("%s: %s", table->rows, strerror(errno));
	struct packer packer;
	packer_begin(&packer, table->packed, table->columns, table->repeats, table->told);
	for (;;) {
		if (stream->length - stream->at < LONGEST_ROW)
			fill(stream);
		if (stream->at == stream->length)
			break;
		int64_t values[MOST_COLUMNS];
		uint64_t mask = take(stream);
		if (mask >> table->columns)
			stop("%s has a row with more than %d columns: it has another layout", table->rows, table->columns);
		for (uint64_t left = mask; left; left &= left - 1)
			values[__builtin_ctzll(left)] = (int64_t)take(stream);
		packer_add(&packer, mask, values);
	}
	close(stream->file);
	free(stream);
	table->rises = packer_end(&packer);
	if (table->rises)
		make_indexes(table);
}
