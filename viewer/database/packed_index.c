/* Indexes of packed rows: packed_index.h says what they are. A file has first its sizes, then places, then rows. */
#include <errno.h>
#include <fcntl.h>
#include <stdlib.h>
#include <sys/mman.h>
#include <sys/stat.h>
#include <unistd.h>

#include "packed_index.h"

enum { FIRST_PLACES = 1024 };

struct sizes {
	uint64_t places, rows;
};

/* ---- made in memory */

/* The place of a value, where it is or may be put. */
static struct packed_of_value *place_of(const struct packed_index *index, int64_t value)
{
	size_t at = (size_t)((uint64_t)value * 0x9e3779b97f4a7c15 >> 32) & (index->places - 1);
	while (index->of_value[at].count && index->of_value[at].value != value)
		at = (at + 1) & (index->places - 1);
	return &index->of_value[at];
}

/* Makes room for twice as many values. */
static int make_room(struct packed_index *index)
{
	struct packed_index more = { .places = index->places ? 2 * index->places : FIRST_PLACES };
	more.of_value = calloc(more.places, sizeof *more.of_value);
	if (!more.of_value)
		return SQLITE_NOMEM;
	for (size_t at = 0; at < index->places; at++)
		if (index->of_value[at].count)
			*place_of(&more, index->of_value[at].value) = index->of_value[at];
	free(index->of_value);
	index->of_value = more.of_value;
	index->places = more.places;
	return SQLITE_OK;
}

static int count_value(struct packed_index *index, int64_t value, size_t number)
{
	(void)number;
	if (2 * index->values >= index->places && make_room(index))
		return SQLITE_NOMEM;
	struct packed_of_value *of = place_of(index, value);
	index->values += !of->count;
	of->value = value;
	of->count++;
	return SQLITE_OK;
}

static int note_row(struct packed_index *index, int64_t value, size_t number)
{
	index->row[place_of(index, value)->begin++] = (uint32_t)number;
	return SQLITE_OK;
}

/* Hands each row that has the column to `take`, with its number. */
static int take_all(struct packed_index *index, struct packed_file *file,
		    int (*take)(struct packed_index *, int64_t, size_t))
{
	struct packed_cursor cursor = { .file = file };
	int is_there = file->blocks > 0, status = is_there ? packed_go_to_number(&cursor, 0) : SQLITE_OK;
	for (size_t number = 0; status == SQLITE_OK && is_there; number++) {
		status = packed_take_columns(&cursor, index->column);
		if (status == SQLITE_OK && cursor.mask >> index->column & 1)
			status = take(index, cursor.values[index->column], number);
		if (status == SQLITE_OK)
			status = packed_go_up(&cursor, &is_there);
	}
	return status;
}

/* Counts the rows of each value, finds where each value's rows begin, and notes these: `begin` then is where they end. */
static int fill(struct packed_index *index, struct packed_file *file)
{
	int status = make_room(index);
	if (status == SQLITE_OK)
		status = take_all(index, file, count_value);
	for (size_t at = 0; status == SQLITE_OK && at < index->places; at++) {
		index->of_value[at].begin = (uint32_t)index->rows;
		index->rows += index->of_value[at].count;
	}
	if (status)
		return status;
	index->row = malloc((index->rows + 1) * sizeof *index->row);
	if (!index->row)
		return SQLITE_NOMEM;
	status = take_all(index, file, note_row);
	for (size_t at = 0; at < index->places; at++)
		index->of_value[at].begin -= index->of_value[at].count;
	return status;
}

int packed_index_make(struct packed_index *index, struct packed_file *file)
{
	if (index->of_value)
		return SQLITE_OK;
	int status = file->blocks > UINT32_MAX / ROWS_OF_BLOCK ? SQLITE_TOOBIG : fill(index, file);
	if (status)
		packed_index_drop(index);
	return status;
}

int packed_index_find(const struct packed_index *index, int64_t value, const uint32_t **first, const uint32_t **end)
{
	const struct packed_of_value *of = place_of(index, value);
	if (of->begin > index->rows || of->count > index->rows - of->begin)
		return SQLITE_CORRUPT;
	*first = index->row + of->begin;
	*end = *first + of->count;
	return SQLITE_OK;
}

/* ---- in a file */

static int write_all(int file, const void *bytes, size_t length)
{
	for (const char *at = bytes; length;) {
		ssize_t taken = write(file, at, length);
		if (taken < 0 && errno == EINTR)
			continue;
		if (taken < 0)
			return SQLITE_IOERR;
		at += taken;
		length -= (size_t)taken;
	}
	return SQLITE_OK;
}

int packed_index_write(const struct packed_index *index, const char *path)
{
	struct sizes sizes = { index->places, index->rows };
	int file = open(path, O_WRONLY | O_CREAT | O_EXCL | O_CLOEXEC, 0600);
	if (file < 0)
		return SQLITE_CANTOPEN;
	int status = write_all(file, &sizes, sizeof sizes);
	if (status == SQLITE_OK)
		status = write_all(file, index->of_value, index->places * sizeof *index->of_value);
	if (status == SQLITE_OK)
		status = write_all(file, index->row, index->rows * sizeof *index->row);
	return close(file) && status == SQLITE_OK ? SQLITE_IOERR : status;
}

/* Whether a file of this length has what its sizes say: a table that is never full, and as many rows. */
static int is_whole(const struct sizes *sizes, size_t length)
{
	size_t room = length - sizeof *sizes, place = sizeof(struct packed_of_value);
	return sizes->places && !(sizes->places & (sizes->places - 1)) && sizes->places <= room / place
	       && (room - sizes->places * place) / sizeof(uint32_t) == sizes->rows
	       && (room - sizes->places * place) % sizeof(uint32_t) == 0;
}

int packed_index_map(struct packed_index *index, const char *path)
{
	int file = open(path, O_RDONLY | O_CLOEXEC);
	if (file < 0)
		return errno == ENOENT ? SQLITE_OK : SQLITE_CANTOPEN;
	struct stat about;
	const struct sizes *sizes = MAP_FAILED;
	if (!fstat(file, &about) && (size_t)about.st_size > sizeof *sizes)
		sizes = mmap(NULL, (size_t)about.st_size, PROT_READ, MAP_PRIVATE, file, 0);
	close(file);
	if (sizes == MAP_FAILED)
		return SQLITE_CANTOPEN;
	index->mapped = (size_t)about.st_size;
	index->of_value = (struct packed_of_value *)(sizes + 1);
	if (!is_whole(sizes, index->mapped)) {
		packed_index_drop(index);
		return SQLITE_CORRUPT;
	}
	index->places = sizes->places;
	index->rows = sizes->rows;
	index->row = (uint32_t *)(index->of_value + index->places);
	return SQLITE_OK;
}

void packed_index_drop(struct packed_index *index)
{
	if (index->mapped) {
		munmap((struct sizes *)index->of_value - 1, index->mapped);
	} else {
		free(index->of_value);
		free(index->row);
	}
	*index = (struct packed_index){ .column = index->column };
}
