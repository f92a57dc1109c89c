/* Reading packed rows: a file of them, and a cursor that is at one. packed.h has the form of a file. */
#include "packed.h"

struct packed_file {
	int columns, repeats;
	size_t length, stretches, blocks, end;	/* `end` is where the last block ends */
	unsigned char *bytes, *is_in_memory;	/* of each stretch, whether it was read since all were given back */
	const struct packed_block *block;
	int told;				/* the column that is told; 0: none is */
	const uint64_t *values;			/* of each block, those of the column that is told */
};

/* A row: its first column, what follows that, and where the next row begins. */
struct packed_row {
	int64_t key;
	const unsigned char *rest, *next;
};

/*
 * A cursor is at a row of a block. Columns are taken from the row when one is asked for: that one, and those before it.
 * `mask` has those that the row has, `left` those that were not taken yet, and `at` is where they are.
 */
struct packed_cursor {
	struct packed_file *file;
	size_t block, nth;			/* `nth`: the number of the row in its block */
	const unsigned char *block_end;		/* NULL: the cursor was at no row yet */
	struct packed_row row;
	int is_taken;
	const unsigned char *at;
	uint64_t mask, left;
	int64_t values[MOST_COLUMNS];
};

/* What a column has to be: one of some values. */
enum { MOST_VALUES = 16 };
struct packed_value {
	int column, values;
	int64_t value[MOST_VALUES];
};

/* The path that stands in a statement, between quotation marks; to be freed by sqlite3_free. */
char *packed_unquoted(const char *word);

/* Maps a file, and finds its list of blocks. A file that is none of ours is refused. All return a status of SQLite. */
int packed_map(struct packed_file *file, const char *path);
void packed_unmap(struct packed_file *file);

/* Goes to the last row that has at most this key, or else to the first row. There must be one. */
int packed_find_last(struct packed_cursor *cursor, int64_t key);

/* Goes to the row with this key; if there is none, `is_there` gets 0. */
int packed_find(struct packed_cursor *cursor, int64_t key, int *is_there);

/* Goes to the next row; after the last one `is_there` gets 0. */
int packed_go_up(struct packed_cursor *cursor, int *is_there);

/*
 * Goes to the next row that has one of some values in a column other than the first, or to the first one behind the key
 * `most`; if there is neither, `is_there` gets 0.
 */
int packed_go_up_to_value(struct packed_cursor *cursor, const struct packed_value *due, int64_t most, int *is_there);

/* Goes to a row by its number. */
int packed_go_to_number(struct packed_cursor *cursor, size_t number);

/* Counts the rows that have at most this key. */
int packed_count_up_to(struct packed_cursor *cursor, int64_t key, size_t *rows);

/* Takes the columns of the row where the cursor is, up to this one. */
int packed_take_columns(struct packed_cursor *cursor, int column);
