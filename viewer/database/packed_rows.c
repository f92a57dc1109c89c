/*
 * Reads packed rows. A row is found by the first column by binary search in the list of blocks, and then row after row
 * in the block. The file is mapped: it belongs to who opens the database, and nobody else writes it.
 */
#include <fcntl.h>
#include <stdlib.h>
#include <string.h>
#include <sys/mman.h>
#include <sys/stat.h>
#include <unistd.h>

#include "packed_rows.h"

/* So many stretches of a file are kept in memory, of so many bytes: about as much as the system maps at a time. */
enum { STRETCH = 16, MOST_STRETCHES = 1024 };

/* ---- a file */

char *packed_unquoted(const char *word)
{
	char *path = sqlite3_mprintf("%s", word + 1), *to = path;
	if (!path)
		return NULL;
	for (const char *from = path; *from && !(from[0] == '\'' && from[1] != '\''); from++) {
		*to++ = *from;
		from += *from == '\'';
	}
	*to = 0;
	return path;
}

static int map_bytes(struct packed_file *file, const char *path)
{
	int opened = open(path, O_RDONLY | O_CLOEXEC);
	struct stat about;
	if (opened < 0 || fstat(opened, &about)) {
		if (opened >= 0)
			close(opened);
		return SQLITE_CANTOPEN;
	}
	file->length = (size_t)about.st_size;
	void *bytes = file->length ? mmap(NULL, file->length, PROT_READ, MAP_PRIVATE, opened, 0) : MAP_FAILED;
	close(opened);
	if (bytes == MAP_FAILED)
		return SQLITE_CANTOPEN;
	file->bytes = bytes;
	file->is_in_memory = calloc((file->length >> STRETCH) + 1, 1);
	return file->is_in_memory ? SQLITE_OK : SQLITE_NOMEM;
}

int packed_map(struct packed_file *file, const char *path)
{
	struct packed_end end;
	*file = (struct packed_file){ 0 };
	int status = map_bytes(file, path);
	if (status)
		return status;
	if (file->length < sizeof end)
		return SQLITE_CORRUPT;
	memcpy(&end, file->bytes + file->length - sizeof end, sizeof end);
	uint64_t room = file->length - sizeof end, of_block = sizeof *file->block + (end.told ? sizeof *file->values : 0);
	if (end.blocks > room / of_block || end.blocks_at != room - end.blocks * of_block
	    || end.blocks_at % sizeof(uint64_t) || end.rows_end > end.blocks_at || !end.columns || end.columns > MOST_COLUMNS
	    || end.told >= end.columns)
		return SQLITE_CORRUPT;
	file->columns = (int)end.columns;
	file->repeats = end.repeats != 0;
	file->blocks = end.blocks;
	file->end = end.rows_end;
	file->block = (const struct packed_block *)(file->bytes + end.blocks_at);
	file->told = (int)end.told;
	file->values = (const uint64_t *)(file->block + file->blocks);
	return SQLITE_OK;
}

void packed_unmap(struct packed_file *file)
{
	if (file->bytes)
		munmap(file->bytes, file->length);
	free(file->is_in_memory);
}

/* Gives back to the system what was read, from time to time: otherwise the whole file would stay in memory. */
static void note_stretch(struct packed_file *file, size_t at)
{
	unsigned char *is_in_memory = &file->is_in_memory[at >> STRETCH];
	if (*is_in_memory)
		return;
	*is_in_memory = 1;
	if (++file->stretches < MOST_STRETCHES)
		return;
	madvise(file->bytes, file->length, MADV_DONTNEED);
	memset(file->is_in_memory, 0, (file->length >> STRETCH) + 1);
	file->stretches = 0;
}

/* ---- numbers and rows */

static const unsigned char *take_long(const unsigned char *at, const unsigned char *end, uint64_t *number)
{
	*number = 0;
	for (unsigned shift = 0; at < end && shift < 64; shift += 7) {
		*number |= (uint64_t)(*at & 0x7f) << shift;
		if (!(*at++ & 0x80))
			return at;
	}
	return NULL;
}

/* Most numbers are small. */
static inline const unsigned char *take_number(const unsigned char *at, const unsigned char *end, uint64_t *number)
{
	if (end - at >= 2 && !(at[0] & at[1] & 0x80)) {
		int is_short = !(at[0] & 0x80);
		*number = is_short ? at[0] : (uint64_t)(at[0] & 0x7f) | (uint64_t)at[1] << 7;
		return at + 2 - is_short;
	}
	return take_long(at, end, number);
}

static inline const unsigned char *take_value(const unsigned char *at, const unsigned char *end, int64_t *number)
{
	uint64_t packed;
	at = take_number(at, end, &packed);
	*number = (int64_t)packed;
	return at;
}

/* Takes the mask of the row where the cursor is. */
static int take_mask(struct packed_cursor *cursor)
{
	cursor->at = take_number(cursor->row.rest, cursor->row.next, &cursor->mask);
	if (!cursor->at || cursor->mask >> cursor->file->columns)
		return SQLITE_CORRUPT;
	cursor->left = cursor->mask & ~(uint64_t)1;
	cursor->values[0] = cursor->row.key;
	cursor->is_taken = 1;
	return SQLITE_OK;
}

int packed_take_columns(struct packed_cursor *cursor, int column)
{
	if (!cursor->is_taken && take_mask(cursor))
		return SQLITE_CORRUPT;
	for (uint64_t due = cursor->left & (((uint64_t)2 << column) - 1); due; due &= due - 1) {
		cursor->at = take_value(cursor->at, cursor->row.next, &cursor->values[__builtin_ctzll(due)]);
		if (!cursor->at)
			return SQLITE_CORRUPT;
		cursor->left &= cursor->left - 1;
	}
	return SQLITE_OK;
}

/* Takes the row that begins at `at`, after one with the key `before`. Returns whether it is whole. */
static int take_row(const unsigned char *at, const unsigned char *end, int64_t before, struct packed_row *row)
{
	uint64_t length;
	int64_t more;
	at = take_number(at, end, &length);
	if (!at || length > (size_t)(end - at))
		return 0;
	row->next = at + length;
	row->rest = take_value(at, row->next, &more);
	row->key = (int64_t)((uint64_t)before + (uint64_t)more);
	return row->rest != NULL;
}

/* ---- where a cursor is */

static int go_to_block(struct packed_cursor *cursor, size_t block)
{
	struct packed_file *file = cursor->file;
	size_t at = file->block[block].at, end = block + 1 < file->blocks ? file->block[block + 1].at : file->end;
	if (at >= end || end > file->end || !take_row(file->bytes + at, file->bytes + end, 0, &cursor->row))
		return SQLITE_CORRUPT;
	note_stretch(file, at);
	cursor->block = block;
	cursor->nth = 0;
	cursor->block_end = file->bytes + end;
	cursor->is_taken = 0;
	return SQLITE_OK;
}

static int take_next(const struct packed_cursor *cursor, struct packed_row *row)
{
	return take_row(cursor->row.next, cursor->block_end, cursor->row.key, row) ? SQLITE_OK : SQLITE_CORRUPT;
}

static void go_to_next_of_block(struct packed_cursor *cursor, const struct packed_row *row)
{
	cursor->row = *row;
	cursor->nth++;
	cursor->is_taken = 0;
}

static int begins_by(const struct packed_file *file, size_t block, int64_t key)
{
	return block < file->blocks && file->block[block].first <= key;
}

/*
 * The number of the last block that begins at or before a key; 0 if none does. Who looks up many rows mostly does so in
 * their order: so it is looked for near the one where the cursor is, in steps that grow, and then between two steps.
 */
static size_t block_of(const struct packed_cursor *cursor, int64_t key)
{
	const struct packed_file *file = cursor->file;
	size_t low = cursor->block, high = low + 1, step;
	for (step = 1; low && !begins_by(file, low, key); step *= 2) {
		high = low;
		low -= step < low ? step : low;
	}
	for (; begins_by(file, high, key); step *= 2) {
		low = high;
		high += step;
	}
	if (high > file->blocks)
		high = file->blocks;
	while (high - low > 1) {
		size_t middle = low + (high - low) / 2;
		if (file->block[middle].first <= key)
			low = middle;
		else
			high = middle;
	}
	return low;
}

/* Goes on in the block while the next row has at most this key. */
static int go_up_to(struct packed_cursor *cursor, int64_t key)
{
	struct packed_row row;
	while (cursor->row.next < cursor->block_end) {
		if (take_next(cursor, &row))
			return SQLITE_CORRUPT;
		if (row.key > key)
			break;
		go_to_next_of_block(cursor, &row);
	}
	return SQLITE_OK;
}

int packed_find_last(struct packed_cursor *cursor, int64_t key)
{
	size_t block = block_of(cursor, key);
	int is_ahead = cursor->block_end && block == cursor->block && cursor->row.key <= key;
	int status = is_ahead ? SQLITE_OK : go_to_block(cursor, block);
	return status ? status : go_up_to(cursor, key);
}

int packed_find(struct packed_cursor *cursor, int64_t key, int *is_there)
{
	*is_there = 0;
	if (!cursor->file->blocks)
		return SQLITE_OK;
	int status = packed_find_last(cursor, key);
	*is_there = status == SQLITE_OK && cursor->row.key == key;
	return status;
}

int packed_go_up(struct packed_cursor *cursor, int *is_there)
{
	struct packed_row row;
	*is_there = 1;
	if (cursor->row.next < cursor->block_end) {
		if (take_next(cursor, &row))
			return SQLITE_CORRUPT;
		go_to_next_of_block(cursor, &row);
		return SQLITE_OK;
	}
	if (cursor->block + 1 < cursor->file->blocks)
		return go_to_block(cursor, cursor->block + 1);
	*is_there = 0;
	return SQLITE_OK;
}

/* Passes over so many numbers, of which none needs to be known. */
static inline const unsigned char *pass_numbers(const unsigned char *at, const unsigned char *end, int count)
{
	for (; count; at++) {
		if (at == end)
			return NULL;
		count -= !(*at & 0x80);
	}
	return at;
}

/*
 * Sees whether a row has one of some values in a column: of all that stands in the row only that column is taken. `has`
 * is what came of it. Returns whether the row is whole so far.
 */
static inline int see_value(const struct packed_row *row, int columns, const struct packed_value *due, int *has)
{
	uint64_t mask;
	int64_t value;
	const unsigned char *at = take_number(row->rest, row->next, &mask);
	*has = 0;
	if (!at || mask >> columns)
		return 0;
	if (!(mask >> due->column & 1))
		return 1;
	uint64_t before = mask & (((uint64_t)1 << due->column) - 2);
	at = pass_numbers(at, row->next, __builtin_popcountll(before));
	if (!at || !take_value(at, row->next, &value))
		return 0;
	for (int number = 0; number < due->values; number++)
		*has |= due->value[number] == value;
	return 1;
}

/* The same of the rows that follow in the block; the first one behind `most` has it too. */
static int go_up_in_block(struct packed_cursor *cursor, const struct packed_value *due, int64_t most, int *has)
{
	struct packed_row row = cursor->row;
	for (size_t nth = cursor->nth + 1; row.next < cursor->block_end; nth++) {
		if (!take_row(row.next, cursor->block_end, row.key, &row) || !see_value(&row, cursor->file->columns, due, has))
			return SQLITE_CORRUPT;
		if (!*has && row.key <= most)
			continue;
		cursor->row = row;
		cursor->nth = nth;
		cursor->is_taken = 0;
		*has = 1;
		return SQLITE_OK;
	}
	*has = 0;
	return SQLITE_OK;
}

/*
 * The next block that may have a row with one of the values, or that is behind `most`. If a column is told, and it is
 * this one, nothing of the blocks before it is read.
 */
static size_t next_block(const struct packed_cursor *cursor, const struct packed_value *due, int64_t most)
{
	const struct packed_file *file = cursor->file;
	size_t block = cursor->block + 1;
	if (!file->told || file->told != due->column)
		return block;
	uint64_t bits = 0;
	for (int number = 0; number < due->values; number++)
		bits |= packed_bit(due->value[number]);
	while (block < file->blocks && !(file->values[block] & bits) && file->block[block].first <= most)
		block++;
	return block;
}

int packed_go_up_to_value(struct packed_cursor *cursor, const struct packed_value *due, int64_t most, int *is_there)
{
	int status = go_up_in_block(cursor, due, most, is_there);
	for (size_t block; status == SQLITE_OK && !*is_there; ) {
		block = next_block(cursor, due, most);
		if (block >= cursor->file->blocks)
			break;
		status = go_to_block(cursor, block);
		if (status == SQLITE_OK && !see_value(&cursor->row, cursor->file->columns, due, is_there))
			status = SQLITE_CORRUPT;
		*is_there |= cursor->row.key > most;
		if (status == SQLITE_OK && !*is_there)
			status = go_up_in_block(cursor, due, most, is_there);
	}
	return status;
}

/* All blocks but the last one have equally many rows. */
int packed_go_to_number(struct packed_cursor *cursor, size_t number)
{
	size_t block = number / ROWS_OF_BLOCK, nth = number % ROWS_OF_BLOCK;
	int is_ahead = cursor->block_end && block == cursor->block && cursor->nth <= nth;
	int status = is_ahead ? SQLITE_OK : go_to_block(cursor, block);
	struct packed_row row;
	while (status == SQLITE_OK && cursor->nth < nth) {
		status = cursor->row.next < cursor->block_end ? take_next(cursor, &row) : SQLITE_CORRUPT;
		if (status == SQLITE_OK)
			go_to_next_of_block(cursor, &row);
	}
	return status;
}

int packed_count_up_to(struct packed_cursor *cursor, int64_t key, size_t *rows)
{
	*rows = 0;
	if (!begins_by(cursor->file, 0, key))
		return SQLITE_OK;
	int status = packed_find_last(cursor, key);
	*rows = cursor->block * ROWS_OF_BLOCK + cursor->nth + 1;
	return status;
}
