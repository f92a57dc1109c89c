/*
 * Looks at the keys of packed files alone, as functions of SQLite, which takes ten times as long to go through rows:
 *
 *     first_only_in(PATH, OTHER)	the first key of the file PATH that the file OTHER lacks; NULL if it has all
 *     rows_up_to(PATH, KEY)		how many rows of the file PATH have at most this key; NULL without a key
 */
#include "packed_rows.h"

/* Goes through the rows of a file while another one has their keys. `is_there` gets 0 if it has all of them. */
static int go_to_first_only(struct packed_cursor *one, struct packed_cursor *other, int *is_there)
{
	*is_there = one->file->blocks > 0;
	int is_in_both = 1, status = *is_there ? packed_go_to_number(one, 0) : SQLITE_OK;
	while (status == SQLITE_OK && *is_there) {
		status = packed_find(other, one->row.key, &is_in_both);
		if (status || !is_in_both)
			break;
		status = packed_go_up(one, is_there);
	}
	return status;
}

static int map_named(struct packed_file *file, sqlite3_value *path)
{
	const char *name = (const char *)sqlite3_value_text(path);
	*file = (struct packed_file){ 0 };
	return name ? packed_map(file, name) : SQLITE_CANTOPEN;
}

static void first_only_in(sqlite3_context *to, int count, sqlite3_value **values)
{
	(void)count;
	struct packed_file one, other;
	int is_there = 0, status = map_named(&one, values[0]), of_other = map_named(&other, values[1]);
	struct packed_cursor in_one = { .file = &one }, in_other = { .file = &other };
	status = status ? status : of_other;
	if (status == SQLITE_OK)
		status = go_to_first_only(&in_one, &in_other, &is_there);
	if (status)
		sqlite3_result_error_code(to, status);
	else if (is_there)
		sqlite3_result_int64(to, in_one.row.key);
	packed_unmap(&one);
	packed_unmap(&other);
}

static void rows_up_to(sqlite3_context *to, int count, sqlite3_value **values)
{
	(void)count;
	if (sqlite3_value_type(values[1]) == SQLITE_NULL)
		return;
	struct packed_file file;
	size_t rows = 0;
	int status = map_named(&file, values[0]);
	struct packed_cursor cursor = { .file = &file };
	if (status == SQLITE_OK)
		status = packed_count_up_to(&cursor, sqlite3_value_int64(values[1]), &rows);
	if (status)
		sqlite3_result_error_code(to, status);
	else
		sqlite3_result_int64(to, (sqlite3_int64)rows);
	packed_unmap(&file);
}

int packed_keys_add(sqlite3 *database)
{
	int status = sqlite3_create_function(database, "first_only_in", 2, SQLITE_UTF8 | SQLITE_DIRECTONLY, NULL,
					     first_only_in, NULL, NULL);
	return status ? status : sqlite3_create_function(database, "rows_up_to", 2, SQLITE_UTF8 | SQLITE_DIRECTONLY, NULL,
							 rows_up_to, NULL, NULL);
}
