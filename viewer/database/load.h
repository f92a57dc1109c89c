/* What the parts of the loader share. */
#include <sqlite3.h>
#include <stddef.h>

#include "packed.h"

/* Ends the program with an error of SQLite, which does not name the database. */
void stop_for(sqlite3 *database) __attribute__((noreturn));

sqlite3_stmt *prepared(sqlite3 *database, const char *statement);

/*
 * A table that is packed: its name, the columns by which its rows are found beside the first one, whether their indexes
 * are made, the column that is told of each block of rows, where its rows come from, and the file of packed rows.
 */
struct packed_table {
	const char *name;
	int indexes;
	const char *index[MOST_COLUMNS], *told_name;
	int is_made[MOST_COLUMNS], index_column[MOST_COLUMNS];
	char *rows, *packed;
	int columns, repeats, told, rises;	/* as packed.h has it */
};

/* Packs the rows of a file or a named pipe, as `./listing --tables` writes them. */
void pack_rows(struct packed_table *table);

/* Reads a side list; side_lines.c says what becomes of its lines. `times` is packed or NULL, `others` a path or NULL. */
void load_side_list(sqlite3 *database, const char *path, struct packed_table *times, const char *others);
