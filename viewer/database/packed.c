/*
 * Packed rows as tables of SQLite, which are read only. A row is found by the first column, or between two values of
 * it. Rows of which other columns are not equal to what is asked for are passed over here, which takes less time than
 * SQLite takes for a row. Of some columns there is an index in a file, which the loader has made; or it is made in
 * memory when rows are first asked for by one.
 */
#include <stdlib.h>

#include "packed_index.h"

/*
 * How a table is looked at: bits of the number by which SQLite hands a plan from best_plan to look_up. Above them the
 * number has for each filter a column, and whether that has to be one of several values. With BY_INDEX the first filter
 * is no such one, but the rows are those that an index has for its value.
 */
enum { EQUAL = 1, FROM = 2, UP_TO = 4, FALLING = 8, BY_INDEX = 16, BITS_OF_KEY = 5, BITS_OF_FILTER = 7, SEVERAL = 64 };

/* So many other columns are looked at, each for up to MOST_VALUES: more are left to SQLite. */
enum { MOST_FILTERS = 3 };

/*
 * What SQLite takes a table of its own to have, and about what it reckons for a look at all of it and for one row, so
 * that its plans for packed rows are those for a table.
 */
static const double ROWS = 1048576, COST_OF_ALL = 3.2e6, COST_OF_ONE = 22, ROWS_OF_VALUE = 10, COST_OF_VALUE = 40;

/* An index, and how many rows would have been looked at without it while it was not there. */
struct by_column {
	struct packed_index index;
	size_t looked_at;
};

struct table {
	sqlite3_vtab base;
	struct packed_file file;
	int indexes;
	struct by_column by[MOST_COLUMNS];
};

/* A cursor is at a row between `least` and `most`, or at the end. */
struct cursor {
	sqlite3_vtab_cursor base;
	struct table *table;
	struct packed_cursor at;
	int64_t least, most;
	int falls, is_by_value, is_at_end;
	const uint32_t *next_row, *end_of_rows;		/* those of a value that come next, if `is_by_value` */
	int filters;
	struct packed_value filter[MOST_FILTERS];
};

/* ---- where a cursor is */

/* Sees whether the row where the cursor is was asked for. */
static int arrive(struct cursor *cursor)
{
	cursor->is_at_end = cursor->at.row.key < cursor->least || cursor->at.row.key > cursor->most;
	return SQLITE_OK;
}

static int end_here(struct cursor *cursor)
{
	cursor->is_at_end = 1;
	return SQLITE_OK;
}

static int go_up(struct cursor *cursor)
{
	int is_there, status = packed_go_up(&cursor->at, &is_there);
	return status ? status : is_there ? arrive(cursor) : end_here(cursor);
}

static int go_down(struct cursor *cursor)
{
	int64_t key = cursor->at.row.key;
	if (key == INT64_MIN)
		return end_here(cursor);
	int status = packed_find_last(&cursor->at, key - 1);
	return status ? status : cursor->at.row.key < key ? arrive(cursor) : end_here(cursor);
}

/*
 * Goes to the first row between the keys that are asked for: of the least key, or if they fall of the greatest. Where
 * keys repeat, it is the one after all that are less.
 */
static int go_to_first(struct cursor *cursor)
{
	if (!cursor->table->file.blocks || cursor->least > cursor->most)
		return end_here(cursor);
	int64_t before = cursor->least - (cursor->table->file.repeats && cursor->least > INT64_MIN);
	int status = packed_find_last(&cursor->at, cursor->falls ? cursor->most : before);
	if (status)
		return status;
	return !cursor->falls && cursor->at.row.key < cursor->least ? go_up(cursor) : arrive(cursor);
}

/* ---- the rows of a value */

/* The first of some rows that does not come before this number. */
static const uint32_t *from_number(const uint32_t *first, const uint32_t *end, size_t number)
{
	while (first < end) {
		const uint32_t *middle = first + (end - first) / 2;
		if (*middle < number)
			first = middle + 1;
		else
			end = middle;
	}
	return first;
}

static int go_to_next_of_value(struct cursor *cursor)
{
	if (cursor->next_row == cursor->end_of_rows)
		return end_here(cursor);
	cursor->is_at_end = 0;
	return packed_go_to_number(&cursor->at, cursor->falls ? *--cursor->end_of_rows : *cursor->next_row++);
}

/* Goes to the first of the rows between the keys that are asked for, of which those of a value will pass. */
static int go_to_first_of_all(struct cursor *cursor, int column, int64_t value)
{
	cursor->filter[cursor->filters++] = (struct packed_value){ .column = column, .values = 1, .value = { value } };
	cursor->is_by_value = 0;
	return go_to_first(cursor);
}

/*
 * Goes to the first row of a value between the keys that are asked for. The index is made when as many rows would have
 * been looked at without it as there are: for some looks at few rows it is not worth its time and memory.
 */
static int go_to_first_of_value(struct cursor *cursor, struct by_column *by, int64_t value)
{
	size_t rows = cursor->table->file.blocks * ROWS_OF_BLOCK, before = 0, up_to = rows;
	int status = SQLITE_OK;
	if (cursor->least > INT64_MIN)
		status = packed_count_up_to(&cursor->at, cursor->least - 1, &before);
	if (status == SQLITE_OK && cursor->most < INT64_MAX)
		status = packed_count_up_to(&cursor->at, cursor->most, &up_to);
	if (status)
		return status;
	by->looked_at += up_to > before ? up_to - before : 0;
	if (!by->index.of_value && by->looked_at < rows)
		return go_to_first_of_all(cursor, by->index.column, value);
	status = packed_index_make(&by->index, &cursor->table->file);
	const uint32_t *first, *end;
	if (status == SQLITE_OK)
		status = packed_index_find(&by->index, value, &first, &end);
	if (status)
		return status;
	cursor->next_row = from_number(first, end, before);
	cursor->end_of_rows = from_number(cursor->next_row, end, up_to);
	return go_to_next_of_value(cursor);
}

/* ---- the rows that pass */

static int has_value(const struct cursor *cursor, const struct packed_value *filter)
{
	int at = 0;
	while (at < filter->values && filter->value[at] != cursor->at.values[filter->column])
		at++;
	return at < filter->values;
}

/* Sees whether the row where the cursor is passes all filters. A column that it does not have is equal to nothing. */
static int see_whether_passes(struct cursor *cursor, int *passes)
{
	*passes = 1;
	for (int number = 0; *passes && number < cursor->filters; number++) {
		const struct packed_value *filter = &cursor->filter[number];
		int status = packed_take_columns(&cursor->at, filter->column);
		if (status)
			return status;
		*passes = cursor->at.mask >> filter->column & 1 && has_value(cursor, filter);
	}
	return SQLITE_OK;
}

/* Goes up to the next row that passes the first filter: of others nothing more is taken than what tells that. */
static int go_up_to_value(struct cursor *cursor)
{
	int is_there, status = packed_go_up_to_value(&cursor->at, &cursor->filter[0], cursor->most, &is_there);
	return status ? status : is_there ? arrive(cursor) : end_here(cursor);
}

static int go_to_next(struct cursor *cursor)
{
	if (cursor->is_by_value)
		return go_to_next_of_value(cursor);
	if (cursor->falls)
		return go_down(cursor);
	return cursor->filters ? go_up_to_value(cursor) : go_up(cursor);
}

/* Goes on until a row passes. */
static int go_to_passing(struct cursor *cursor)
{
	for (;;) {
		int passes, status = cursor->is_at_end ? SQLITE_OK : see_whether_passes(cursor, &passes);
		if (status || cursor->is_at_end || passes)
			return status;
		status = go_to_next(cursor);
		if (status)
			return status;
	}
}

static int go_on(sqlite3_vtab_cursor *base)
{
	int status = go_to_next((struct cursor *)base);
	return status ? status : go_to_passing((struct cursor *)base);
}

/* ---- what SQLite asks for */

/*
 * Narrows the rows by a value that the key is compared with. Of what is no whole number SQLite itself sees to the
 * comparison, since none is left out here: but nothing is equal to it, and nothing compares with NULL.
 */
static void narrow(struct cursor *cursor, sqlite3_value *value, int how)
{
	int type = sqlite3_value_numeric_type(value);
	if (type == SQLITE_INTEGER) {
		int64_t key = sqlite3_value_int64(value);
		if (how != UP_TO && key > cursor->least)
			cursor->least = key;
		if (how != FROM && key < cursor->most)
			cursor->most = key;
	} else if (type == SQLITE_NULL || (how == EQUAL && type != SQLITE_FLOAT)) {
		cursor->least = INT64_MAX, cursor->most = INT64_MIN;
	}
}

/* Adds a value to those of a filter. Returns whether it could: of what is no whole number SQLite sees to it. */
static int add_value(struct packed_value *filter, sqlite3_value *value)
{
	int type = sqlite3_value_numeric_type(value);
	if (type == SQLITE_NULL)
		return 1;
	if (type != SQLITE_INTEGER || filter->values == MOST_VALUES)
		return 0;
	filter->value[filter->values++] = sqlite3_value_int64(value);
	return 1;
}

/* Adds a filter by what a column has to be, unless that can't be looked at here. */
static void add_filter(struct cursor *cursor, int plan, sqlite3_value *asked)
{
	struct packed_value *filter = &cursor->filter[cursor->filters];
	filter->column = plan & (SEVERAL - 1);
	filter->values = 0;
	if (!(plan & SEVERAL)) {
		cursor->filters += add_value(filter, asked);
		return;
	}
	sqlite3_value *value;
	int status = sqlite3_vtab_in_first(asked, &value);
	while (status == SQLITE_OK && value && add_value(filter, value))
		status = sqlite3_vtab_in_next(asked, &value);
	cursor->filters += status == SQLITE_DONE;
}

static struct by_column *index_of(struct table *table, int column)
{
	int number = 0;
	while (number < table->indexes && table->by[number].index.column != column)
		number++;
	return number < table->indexes ? &table->by[number] : NULL;
}

/*
 * Goes to the first of the rows that are asked for: of a value by the index, if the value is a whole number. Otherwise
 * all rows are looked at, and SQLite sees to the comparison, as it does in any case.
 */
static int go_to_first_asked(struct cursor *cursor, int column, sqlite3_value *value)
{
	int type = value ? sqlite3_value_numeric_type(value) : SQLITE_BLOB;
	if (type == SQLITE_NULL)
		return end_here(cursor);
	cursor->is_by_value = type == SQLITE_INTEGER;
	return cursor->is_by_value
		? go_to_first_of_value(cursor, index_of(cursor->table, column), sqlite3_value_int64(value))
		: go_to_first(cursor);
}

static int look_up(sqlite3_vtab_cursor *base, int plan, const char *name, int count, sqlite3_value **values)
{
	(void)name, (void)count;
	struct cursor *cursor = (struct cursor *)base;
	cursor->least = INT64_MIN, cursor->most = INT64_MAX;
	cursor->falls = plan & FALLING;
	for (int how = EQUAL; how <= UP_TO; how <<= 1)
		if (plan & how)
			narrow(cursor, *values++, how);
	cursor->filters = 0;
	int filters = plan >> BITS_OF_KEY, column = filters & (SEVERAL - 1);
	sqlite3_value *value = NULL;
	if (plan & BY_INDEX) {
		value = *values++;
		filters >>= BITS_OF_FILTER;
	}
	for (; filters; filters >>= BITS_OF_FILTER)
		add_filter(cursor, filters & ((1 << BITS_OF_FILTER) - 1), *values++);
	int status = go_to_first_asked(cursor, column, value);
	return status ? status : go_to_passing(cursor);
}

/* Whether a column is the key: SQLite has -1 for what tells rows apart, which is the key unless keys repeat. */
static int is_key(const struct table *table, int column)
{
	return column == 0 || (column < 0 && !table->file.repeats);
}

/* Which bit of a plan a comparison of the key is; 0 of one that is not looked at here. */
static int bit_of(const struct table *table, const struct sqlite3_index_constraint *compared)
{
	if (!compared->usable || !is_key(table, compared->iColumn))
		return 0;
	switch (compared->op) {
	case SQLITE_INDEX_CONSTRAINT_EQ: return EQUAL;
	case SQLITE_INDEX_CONSTRAINT_GT: case SQLITE_INDEX_CONSTRAINT_GE: return FROM;
	case SQLITE_INDEX_CONSTRAINT_LT: case SQLITE_INDEX_CONSTRAINT_LE: return UP_TO;
	default: return 0;
	}
}

static int is_of_filter(const struct sqlite3_index_constraint *compared)
{
	return compared->usable && compared->iColumn > 0 && compared->op == SQLITE_INDEX_CONSTRAINT_EQ;
}

/*
 * The number of a comparison of a column that has an index; -1 if there is none. One with several values is none: the
 * rows would come in the order of values.
 */
static int indexed_of(struct table *table, sqlite3_index_info *asked)
{
	for (int number = 0; number < asked->nConstraint; number++)
		if (is_of_filter(&asked->aConstraint[number]) && index_of(table, asked->aConstraint[number].iColumn)
		    && !sqlite3_vtab_in(asked, number, -1))
			return number;
	return -1;
}

/* Asks for the values that columns other than the key have to be equal to, of one by its index. */
static void plan_filters(sqlite3_index_info *asked, int given, int indexed)
{
	int shift = BITS_OF_KEY;
	if (indexed >= 0) {
		asked->aConstraintUsage[indexed].argvIndex = ++given;
		asked->idxNum |= BY_INDEX | asked->aConstraint[indexed].iColumn << shift;
		shift += BITS_OF_FILTER;
	}
	for (int number = 0; number < asked->nConstraint && shift < BITS_OF_KEY + MOST_FILTERS * BITS_OF_FILTER; number++) {
		if (number == indexed || !is_of_filter(&asked->aConstraint[number]))
			continue;
		int several = sqlite3_vtab_in(asked, number, 1) ? SEVERAL : 0;
		asked->aConstraintUsage[number].argvIndex = ++given;
		asked->idxNum |= (asked->aConstraint[number].iColumn | several) << shift;
		shift += BITS_OF_FILTER;
	}
}

/* Filters count for nothing in what a plan is reckoned to take: so no plan is made for their sake. */
static int best_plan(sqlite3_vtab *base, sqlite3_index_info *asked)
{
	struct table *table = (struct table *)base;
	int at[UP_TO + 1] = { 0 };	/* by bit, the number of a comparison, from 1 */
	for (int number = 0; number < asked->nConstraint; number++)
		at[bit_of(table, &asked->aConstraint[number])] = number + 1;
	int repeats = table->file.repeats, is_one = at[EQUAL] && !repeats;
	if (at[EQUAL])
		at[FROM] = at[UP_TO] = 0;
	double share = 1;
	int given = 0;
	asked->idxNum = 0;
	for (int bit = EQUAL; bit <= UP_TO; bit <<= 1) {
		if (!at[bit])
			continue;
		asked->aConstraintUsage[at[bit] - 1].argvIndex = ++given;
		asked->idxNum |= bit;
		share /= 4;
	}
	int indexed = at[EQUAL] ? -1 : indexed_of(table, asked);
	double rows = indexed < 0 ? ROWS : ROWS_OF_VALUE, cost = indexed < 0 ? COST_OF_ALL : COST_OF_VALUE;
	asked->estimatedRows = at[EQUAL] ? 1 + repeats : (sqlite3_int64)(rows * share);
	asked->estimatedCost = at[EQUAL] ? COST_OF_ONE : cost * share;
	asked->idxFlags = is_one ? SQLITE_INDEX_SCAN_UNIQUE : 0;
	if (asked->nOrderBy == 1 && is_key(table, asked->aOrderBy[0].iColumn) && !(repeats && asked->aOrderBy[0].desc)) {
		asked->orderByConsumed = 1;
		asked->idxNum |= asked->aOrderBy[0].desc ? FALLING : 0;
	}
	if (!is_one)
		plan_filters(asked, given, indexed);
	return SQLITE_OK;
}

static int is_at_end(sqlite3_vtab_cursor *cursor)
{
	return ((struct cursor *)cursor)->is_at_end;
}

static int give_column(sqlite3_vtab_cursor *base, sqlite3_context *to, int column)
{
	struct cursor *cursor = (struct cursor *)base;
	int status = packed_take_columns(&cursor->at, column);
	if (status == SQLITE_OK && cursor->at.mask >> column & 1)
		sqlite3_result_int64(to, cursor->at.values[column]);
	return status;
}

/* What tells a row apart: its key, or if keys repeat its number. */
static int give_rowid(sqlite3_vtab_cursor *base, sqlite3_int64 *rowid)
{
	const struct packed_cursor *at = &((struct cursor *)base)->at;
	*rowid = at->file->repeats ? (sqlite3_int64)(at->block * ROWS_OF_BLOCK + at->nth) : at->row.key;
	return SQLITE_OK;
}

static int open_cursor(sqlite3_vtab *base, sqlite3_vtab_cursor **made)
{
	struct cursor *cursor = calloc(1, sizeof *cursor);
	*made = cursor ? &cursor->base : NULL;
	if (!cursor)
		return SQLITE_NOMEM;
	cursor->table = (struct table *)base;
	cursor->at.file = &cursor->table->file;
	return SQLITE_OK;
}

static int close_cursor(sqlite3_vtab_cursor *cursor)
{
	free(cursor);
	return SQLITE_OK;
}

static int disconnect(sqlite3_vtab *base)
{
	struct table *table = (struct table *)base;
	packed_unmap(&table->file);
	for (int number = 0; number < table->indexes; number++)
		packed_index_drop(&table->by[number].index);
	free(table);
	return SQLITE_OK;
}

static int declare(sqlite3 *database, const char *columns)
{
	char *statement = sqlite3_mprintf("CREATE TABLE rows%s", columns);
	int status = statement ? sqlite3_declare_vtab(database, statement) : SQLITE_NOMEM;
	sqlite3_free(statement);
	return status;
}

/* Takes the numbers of columns that have an index, and the files of those that are made. */
static int take_indexes(struct table *table, const char *path, int count, const char *const *words)
{
	int status = SQLITE_OK;
	for (int number = 0; status == SQLITE_OK && number < count; number++) {
		int column = atoi(words[number]);
		if (column <= 0 || column >= table->file.columns)
			return SQLITE_CORRUPT;
		struct packed_index *index = &table->by[table->indexes++].index;
		index->column = column;
		char *file = sqlite3_mprintf("%s.%d", path, column);
		status = file ? packed_index_map(index, file) : SQLITE_NOMEM;
		sqlite3_free(file);
	}
	return status;
}

static int connect(sqlite3 *database, void *nothing, int count, const char *const *words, sqlite3_vtab **made,
		   char **why)
{
	(void)nothing;
	struct table *table = calloc(1, sizeof *table);
	char *path = count >= 5 && count < 5 + MOST_COLUMNS ? packed_unquoted(words[3]) : NULL;
	int status = !table || !path ? SQLITE_NOMEM : declare(database, words[4]);
	if (status == SQLITE_OK)
		status = packed_map(&table->file, path);
	if (status == SQLITE_OK)
		status = take_indexes(table, path, count - 5, words + 5);
	if (status && path)
		*why = sqlite3_mprintf("%s: it holds no packed rows", path);
	sqlite3_free(path);
	if (status && table)
		disconnect(&table->base);
	*made = status ? NULL : &table->base;
	return status;
}

static const sqlite3_module packed_module = {
	.xCreate = connect, .xConnect = connect, .xBestIndex = best_plan, .xDisconnect = disconnect,
	.xDestroy = disconnect, .xOpen = open_cursor, .xClose = close_cursor, .xFilter = look_up, .xNext = go_on,
	.xEof = is_at_end, .xColumn = give_column, .xRowid = give_rowid,
};

int packed_module_add(sqlite3 *database)
{
	int status = sqlite3_create_module(database, "packed", &packed_module, NULL);
	status = status ? status : sums_module_add(database);
	return status ? status : packed_keys_add(database);
}

static int add_to_new(sqlite3 *database, const char **why, const void *calls)
{
	(void)why, (void)calls;
	return packed_module_add(database);
}

/* For a program that opens databases by itself: each that it opens from now on has the module. */
int packed_module_add_to_all(void)
{
	return sqlite3_auto_extension((void (*)(void))add_to_new);
}
