/*
 * Rows of whole numbers, packed into a file that is a table of SQLite.
 *
 * A row has some of up to 63 columns. Its first column rises from row to row, and rows are found by it; in a table whose
 * first column repeats, some rows one after another have the same one. A file has blocks of rows one after another;
 * then, of each block, the first column of its first row and where it begins; then, if a column is told, of each block
 * which values its rows have in it, by `packed_bit`; and then a `struct packed_end`. A row is the number of bytes that
 * follow in it; its first column, less that of the row before in the block; its mask, which has a bit for each column
 * that is there; and the other columns. All these are numbers of seven bits a byte, the least ones first, with the
 * highest bit where more follow: nearly all are small, and one below 0 takes ten bytes.
 */
#ifndef VIEWER_PACKED_H
#define VIEWER_PACKED_H

#include <sqlite3.h>
#include <stddef.h>
#include <stdint.h>

enum { MOST_COLUMNS = 63, ROWS_OF_BLOCK = 32, MOST_BYTES = 10, LONGEST_PACKED = (MOST_COLUMNS + 2) * MOST_BYTES };

struct packed_block {
	int64_t first;
	uint64_t at;
};

struct packed_end {
	uint64_t blocks, columns, told, blocks_at, rows_end, repeats;
};

/*
 * The bit of a value among those of a block. The kinds of records have each one of its own: those that a process writes
 * the lower half, and those that it reads the upper one.
 */
static inline uint64_t packed_bit(int64_t value)
{
	return (uint64_t)1 << (((uint64_t)value ^ (uint64_t)value >> 3) & 63);
}

/* A file that is being written. What fails ends the program, by `stop`. `told` is the column that is told, or 0. */
struct packer {
	const char *path;
	int file, columns, rows_of_block, repeats, told, rises;
	size_t held, blocks, room;
	uint64_t written;
	int64_t last;
	struct packed_block *block;
	uint64_t *values;	/* of each block, those of the column that is told */
	unsigned char *waiting;
};

void stop(const char *format, ...) __attribute__((noreturn, format(printf, 1, 2)));

void packer_begin(struct packer *packer, const char *path, int columns, int repeats, int told);
void packer_add(struct packer *packer, uint64_t mask, const int64_t *values);

/* Ends the file. Returns whether its first column rose, as it should: otherwise it is no table. */
int packer_end(struct packer *packer);

/*
 * Adds the module `packed` to a database:
 *
 *     CREATE VIRTUAL TABLE NAME USING packed('PATH', (COLUMNS) [, NUMBER]..)
 *
 * NUMBER is that of a column, from 0, by which rows are found too: by an index in the file PATH.NUMBER, or if there is
 * none, by one in memory. And adds the module `sums` of sums.c, and the functions of packed_keys.c.
 */
int packed_module_add(sqlite3 *database);
int sums_module_add(sqlite3 *database);
int packed_keys_add(sqlite3 *database);

#endif
