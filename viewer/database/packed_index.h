/*
 * The rows of each value of a column, by which they are found: a table in which a value is looked for, and the numbers
 * of rows, in their order. It is made in memory, or once for all that look for rows, and mapped from a file.
 */
#include "packed_rows.h"

/* The rows of a value: so many from `begin` on. None: the place of the value is free. */
struct packed_of_value {
	int64_t value;
	uint32_t begin, count;
};

struct packed_index {
	int column;
	size_t places, values, rows;
	struct packed_of_value *of_value;	/* NULL: it is not there yet */
	uint32_t *row;
	size_t mapped;				/* how many bytes of a file are mapped; 0 if it is in memory */
};

/* Makes the index of its column in memory. */
int packed_index_make(struct packed_index *index, struct packed_file *file);

/* Writes an index that was made into a new file, or maps it from one; if there is none, it is not there. */
int packed_index_write(const struct packed_index *index, const char *path);
int packed_index_map(struct packed_index *index, const char *path);

void packed_index_drop(struct packed_index *index);

/* The rows that have a value, from `*first` to `*end`. */
int packed_index_find(const struct packed_index *index, int64_t value, const uint32_t **first, const uint32_t **end);
