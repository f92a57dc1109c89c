/*
 * Loads the raw tables of a capture into a new SQLite database.
 *
 *     load [--pack TABLE [--tell COLUMN] [--by COLUMN | --index COLUMN]..].. DATABASE FOLDER SCHEMA [SIDE [OTHERS]]
 *     load --many DATABASE SCHEMA
 *
 * DATABASE is created, and must not exist. SCHEMA is a file of SQL statements that create the tables; or a database that
 * has these tables, empty, to be copied, which takes a tenth of the time. Each table whose name begins with raw_ takes the rows of FOLDER/NAME.rows, where NAME is what follows raw_. docs/DATABASE.md says what
 * a row is. Only the schema says how many columns a table has, and which of them are texts. side_time takes the lines
 * of frames of SIDE, a side list, and side_call those of calls; OTHERS is made of the other lines, as side_lines.c says.
 * Everything is one transaction.
 *
 * A TABLE has whole numbers alone, and its first column rises, or repeats if it is no key. It becomes a virtual table of DATABASE.TABLE, a file of
 * packed rows, in which rows are found by the first column, and by each COLUMN: by an index that is made here, or by who
 * asks. Of one that is told, blocks of rows that have other values in it are passed over. If FOLDER/NAME.rows of such a table is a
 * named pipe, its rows are packed as they come, and all files of FOLDER are there at the end of standard input.
 *
 * With --many it loads one capture after another, each in the place of the one before, as standard input asks for:
 * FOLDER and SIDE, with a zero byte after each, and nothing for SIDE if there is none. SCHEMA is a database. A byte on
 * standard output says that everything is loaded, and that nothing is locked.
 *
 * Status 0: everything is loaded. Status 1: a line on standard error says why not, and DATABASE is not whole.
 * Nothing of this is proved: it copies numbers and texts, and checks that rows are whole.
 */
#include <errno.h>
#include <fcntl.h>
#include <pthread.h>
#include <sqlite3.h>
#include <stdarg.h>
#include <stdint.h>
#include <stdio.h>
#include <stdlib.h>
#include <string.h>
#include <sys/mman.h>
#include <sys/stat.h>
#include <unistd.h>

#include "load.h"

enum { LONGEST_NAME = 256, KEPT = 1 << 26, MOST_PACKED = 8 };

void stop(const char *format, ...)
{
	va_list words;
	va_start(words, format);
	fputs("load: ", stderr);
	vfprintf(stderr, format, words);
	fputc('\n', stderr);
	va_end(words);
	exit(1);
}

void stop_for(sqlite3 *database)
{
	stop("%s: %s", sqlite3_db_filename(database, "main"), sqlite3_errmsg(database));
}

static void run(sqlite3 *database, const char *statements)
{
	if (sqlite3_exec(database, statements, NULL, NULL, NULL) != SQLITE_OK)
		stop_for(database);
}

sqlite3_stmt *prepared(sqlite3 *database, const char *statement)
{
	sqlite3_stmt *made = NULL;
	if (sqlite3_prepare_v2(database, statement, -1, &made, NULL) != SQLITE_OK)
		stop_for(database);
	return made;
}

/* Maps the bytes of a file; `forget` unmaps them. They are read only when used: a file may be larger than memory. */
static unsigned char *bytes_of(const char *path, size_t *length)
{
	int file = open(path, O_RDONLY);
	struct stat about;
	if (file < 0 || fstat(file, &about))
		stop("%s: %s", path, strerror(errno));
	*length = (size_t)about.st_size;
	void *bytes = *length ? mmap(NULL, *length, PROT_READ, MAP_PRIVATE, file, 0) : NULL;
	if (bytes == MAP_FAILED)
		stop("%s: %s", path, strerror(errno));
	close(file);
	return bytes;
}

static void forget(unsigned char *bytes, size_t length)
{
	if (length)
		munmap(bytes, length);
}

/* The rows of a file. */
struct rows {
	const char *path;
	unsigned char *bytes;
	size_t length;
	int columns;
	uint64_t texts;		/* a bit for each column that is a text */
};

/*
 * The rows of the file that is loaded now, as a virtual table: so one statement loads a whole table, in half the time
 * that a statement for each row takes.
 */
struct rows_table {
	sqlite3_vtab base;
	struct rows **current;
};

/* A cursor is at a row, or at the end of the file. Of each column it has where it is, and 0 if it is NULL. */
struct cursor {
	sqlite3_vtab_cursor base;
	size_t at, next, given_back;
	size_t columns_at[MOST_COLUMNS];
};

static const struct rows *rows_of(const sqlite3_vtab_cursor *cursor)
{
	return *((const struct rows_table *)cursor->pVtab)->current;
}

static uint64_t number_at(const struct rows *rows, size_t at)
{
	uint64_t number = 0;
	for (int byte = 7; byte >= 0; byte--)
		number = number << 8 | rows->bytes[at + (size_t)byte];
	return number;
}

/* Takes so many bytes of the row, from where the next row would begin otherwise. */
static size_t take(struct cursor *cursor, const struct rows *rows, uint64_t length)
{
	size_t at = cursor->next;
	if (rows->length - at < length)
		stop("%s ends within a row", rows->path);
	cursor->next += length;
	return at;
}

/* Gives back to the system what was read, from time to time: otherwise the whole file would stay in memory. */
static void give_back(struct cursor *cursor, const struct rows *rows)
{
	if (cursor->at - cursor->given_back < KEPT)
		return;
	madvise(rows->bytes + cursor->given_back, KEPT, MADV_DONTNEED);
	cursor->given_back += KEPT;
}

static int go_on(sqlite3_vtab_cursor *base)
{
	struct cursor *cursor = (struct cursor *)base;
	const struct rows *rows = rows_of(base);
	give_back(cursor, rows);
	cursor->at = cursor->next;
	if (cursor->at == rows->length)
		return SQLITE_OK;
	uint64_t mask = number_at(rows, take(cursor, rows, 8));
	if (mask >> rows->columns)
		stop("%s has a row with more than %d columns: it has another layout", rows->path, rows->columns);
	for (int column = 0; column < rows->columns; column++) {
		size_t at = cursor->columns_at[column] = mask >> column & 1 ? take(cursor, rows, 8) : 0;
		if (at && rows->texts >> column & 1)
			take(cursor, rows, number_at(rows, at));
	}
	return SQLITE_OK;
}

static int go_to_begin(sqlite3_vtab_cursor *base, int plan, const char *name, int count, sqlite3_value **values)
{
	(void)plan, (void)name, (void)count, (void)values;
	((struct cursor *)base)->next = ((struct cursor *)base)->given_back = 0;
	return go_on(base);
}

static int is_at_end(sqlite3_vtab_cursor *base)
{
	return ((struct cursor *)base)->at == rows_of(base)->length;
}

static int give_column(sqlite3_vtab_cursor *base, sqlite3_context *to, int column)
{
	const struct rows *rows = rows_of(base);
	size_t at = ((struct cursor *)base)->columns_at[column];
	if (at && rows->texts >> column & 1)
		sqlite3_result_text64(to, (char *)rows->bytes + at + 8, number_at(rows, at), SQLITE_STATIC, SQLITE_UTF8);
	else if (at)
		sqlite3_result_int64(to, (sqlite3_int64)number_at(rows, at));
	return SQLITE_OK;
}

static int give_place(sqlite3_vtab_cursor *base, sqlite3_int64 *place)
{
	*place = (sqlite3_int64)((struct cursor *)base)->at;
	return SQLITE_OK;
}

static int open_cursor(sqlite3_vtab *table, sqlite3_vtab_cursor **made)
{
	(void)table;
	struct cursor *cursor = calloc(1, sizeof *cursor);
	*made = cursor ? &cursor->base : NULL;
	return cursor ? SQLITE_OK : SQLITE_NOMEM;
}

static int close_cursor(sqlite3_vtab_cursor *cursor)
{
	free(cursor);
	return SQLITE_OK;
}

/* The columns c0, c1 and so on, with commas between. */
static char *columns_of(int count)
{
	char *text = sqlite3_mprintf("c0");
	for (int column = 1; column < count; column++)
		text = sqlite3_mprintf("%z, c%d", text, column);
	return text;
}

/* Declares to SQLite as many columns as a file may have, once for all files. */
static int connect(sqlite3 *database, void *current, int count, const char *const *words, sqlite3_vtab **table,
		   char **why)
{
	(void)count, (void)words, (void)why;
	struct rows_table *made = calloc(1, sizeof *made);
	char *declared = sqlite3_mprintf("CREATE TABLE rows(%z)", columns_of(MOST_COLUMNS));
	int status = made && declared ? sqlite3_declare_vtab(database, declared) : SQLITE_NOMEM;
	sqlite3_free(declared);
	if (status != SQLITE_OK) {
		free(made);
		return status;
	}
	made->current = current;
	*table = &made->base;
	return SQLITE_OK;
}

static int leave(sqlite3_vtab *table)
{
	free(table);
	return SQLITE_OK;
}

static int plan(sqlite3_vtab *table, sqlite3_index_info *asked)
{
	(void)table, (void)asked;
	return SQLITE_OK;
}

static const sqlite3_module rows_module = {
	.xConnect = connect, .xBestIndex = plan, .xDisconnect = leave,
	.xOpen = open_cursor, .xClose = close_cursor, .xFilter = go_to_begin, .xNext = go_on, .xEof = is_at_end,
	.xColumn = give_column, .xRowid = give_place,
};

static void learn_columns(sqlite3 *database, const char *table, struct rows *rows)
{
	char *statement = sqlite3_mprintf("SELECT * FROM %w", table);
	sqlite3_stmt *whole = prepared(database, statement);
	rows->columns = sqlite3_column_count(whole);
	if (rows->columns > MOST_COLUMNS)
		stop("%s has more than %d columns", table, MOST_COLUMNS);
	for (int column = 0; column < rows->columns; column++)
		if (!strcmp(sqlite3_column_decltype(whole, column), "TEXT"))
			rows->texts |= (uint64_t)1 << column;
	sqlite3_finalize(whole);
	sqlite3_free(statement);
}

/* The tables that are packed, and the threads that do so. */
struct packing {
	int tables, threads;
	struct packed_table table[MOST_PACKED];
	pthread_t thread[MOST_PACKED];
};

/* Of a database that is not kept nobody else needs the rows: so less is on the disk at a time. */
static void remove_rows(const struct packing *packing, const char *path)
{
	if (packing->tables)
		unlink(path);
}

static void load_table(sqlite3 *database, const char *table, const char *folder, const struct packing *packing,
		       struct rows **current)
{
	char *path = sqlite3_mprintf("%s/%s.rows", folder, table + strlen("raw_"));
	struct rows rows = { .path = path };
	learn_columns(database, table, &rows);
	rows.bytes = bytes_of(path, &rows.length);
	*current = &rows;
	char *statement = sqlite3_mprintf("INSERT INTO main.%w SELECT %z FROM rows", table, columns_of(rows.columns));
	if (rows.length)
		run(database, statement);
	sqlite3_free(statement);
	forget(rows.bytes, rows.length);
	remove_rows(packing, path);
	sqlite3_free(path);
}

static struct packed_table *packed_of(struct packing *packing, const char *name)
{
	for (int number = 0; number < packing->tables; number++)
		if (!strcmp(packing->table[number].name, name))
			return &packing->table[number];
	return NULL;
}

static void load_tables(sqlite3 *database, const char *folder, struct packing *packing, struct rows **current)
{
	sqlite3_stmt *next = prepared(database, "SELECT name FROM main.sqlite_schema WHERE type = 'table'"
						" AND name GLOB 'raw_*' AND name > ? ORDER BY name LIMIT 1");
	char table[LONGEST_NAME] = "";
	for (;;) {
		sqlite3_bind_text(next, 1, table, -1, SQLITE_TRANSIENT);
		if (sqlite3_step(next) != SQLITE_ROW)
			break;
		snprintf(table, sizeof table, "%s", (const char *)sqlite3_column_text(next, 0));
		sqlite3_reset(next);
		if (!packed_of(packing, table))
			load_table(database, table, folder, packing, current);
	}
	sqlite3_finalize(next);
}

/* The schema: the bytes of its file, and whether that is a database. */
struct schema {
	unsigned char *bytes;
	size_t length;
	int is_database;
};

static struct schema schema_of(const char *path)
{
	static const char sign[16] = "SQLite format 3";
	struct schema schema = { 0 };
	schema.bytes = bytes_of(path, &schema.length);
	schema.is_database = schema.length >= sizeof sign && !memcmp(schema.bytes, sign, sizeof sign);
	return schema;
}

static void run_schema(sqlite3 *database, const struct schema *schema)
{
	char *statements = sqlite3_mprintf("%.*s", (int)schema->length, (const char *)schema->bytes);
	run(database, statements);
	sqlite3_free(statements);
}

/* ---- packed tables */

/* The number of a column. */
static int column_of(sqlite3 *database, const struct packed_table *table, const char *name)
{
	sqlite3_stmt *asked = prepared(database, "SELECT cid FROM pragma_table_info(?) WHERE name = ?");
	sqlite3_bind_text(asked, 1, table->name, -1, SQLITE_STATIC);
	sqlite3_bind_text(asked, 2, name, -1, SQLITE_STATIC);
	if (sqlite3_step(asked) != SQLITE_ROW)
		stop("%s has no column %s", table->name, name);
	int number = sqlite3_column_int(asked, 0);
	sqlite3_finalize(asked);
	return number;
}

/* Learns how many columns a table has, whether its first one is that of a key, and which one is told. */
static void learn_table(sqlite3 *database, struct packed_table *table)
{
	struct rows rows = { 0 };
	learn_columns(database, table->name, &rows);
	table->columns = rows.columns;
	sqlite3_stmt *asked = prepared(database, "SELECT pk FROM pragma_table_info(?) WHERE cid = 0");
	sqlite3_bind_text(asked, 1, table->name, -1, SQLITE_STATIC);
	table->repeats = sqlite3_step(asked) == SQLITE_ROW && !sqlite3_column_int(asked, 0);
	sqlite3_finalize(asked);
	table->told = table->told_name ? column_of(database, table, table->told_name) : 0;
	for (int number = 0; number < table->indexes; number++)
		table->index_column[number] = column_of(database, table, table->index[number]);
}

static void *pack_in_thread(void *table)
{
	pack_rows(table);
	return NULL;
}

static int is_pipe(const char *path)
{
	struct stat about;
	return !stat(path, &about) && S_ISFIFO(about.st_mode);
}

static void begin_thread(struct packing *packing, struct packed_table *table)
{
	if (pthread_create(&packing->thread[packing->threads++], NULL, pack_in_thread, table))
		stop("a thread could not be started");
}

/* Begins to pack what comes through pipes. */
static void begin_packing(sqlite3 *database, const char *to, const char *folder, struct packing *packing)
{
	for (int number = 0; number < packing->tables; number++) {
		struct packed_table *table = &packing->table[number];
		learn_table(database, table);
		table->packed = sqlite3_mprintf("%s.%s", to, table->name);
		const char *after = strncmp(table->name, "raw_", 4) ? NULL : table->name + 4;
		table->rows = after ? sqlite3_mprintf("%s/%s.rows", folder, after) : NULL;
		if (table->rows && is_pipe(table->rows))
			begin_thread(packing, table);
	}
}

static void wait_for_threads(struct packing *packing)
{
	while (packing->threads)
		pthread_join(packing->thread[--packing->threads], NULL);
}

/*
 * Waits for what comes through pipes, and until all files are there, and begins to pack the others. If nothing comes
 * through pipes, it ends when they are packed.
 */
static void pack_others(struct packing *packing)
{
	int is_awaited = packing->threads;
	char sign;
	wait_for_threads(packing);
	while (is_awaited && read(STDIN_FILENO, &sign, 1) > 0)
		;
	for (int number = 0; number < packing->tables; number++) {
		struct packed_table *table = &packing->table[number];
		if (table->rows && !is_pipe(table->rows))
			begin_thread(packing, table);
	}
	if (!is_awaited)
		wait_for_threads(packing);
}

static void end_packing(struct packing *packing)
{
	wait_for_threads(packing);
	for (int number = 0; number < packing->tables; number++)
		if (packing->table[number].rows)
			remove_rows(packing, packing->table[number].rows);
}

/* The columns of a table, as they were declared. */
static char *columns_text(sqlite3 *database, const char *table)
{
	sqlite3_stmt *asked = prepared(database, "SELECT substr(sql, instr(sql, '(')) FROM sqlite_schema WHERE name = ?");
	sqlite3_bind_text(asked, 1, table, -1, SQLITE_TRANSIENT);
	if (sqlite3_step(asked) != SQLITE_ROW)
		stop("%s is no table of the schema", table);
	char *text = sqlite3_mprintf("%s", sqlite3_column_text(asked, 0));
	sqlite3_finalize(asked);
	char *end = text ? strrchr(text, ')') : NULL;
	if (!end)
		stop("%s has no columns", table);
	end[1] = 0;
	return text;
}

/* The numbers of the columns by which rows are found, each after a comma. */
static char *indexes_text(const struct packed_table *table)
{
	char *text = sqlite3_mprintf("");
	for (int number = 0; number < table->indexes; number++)
		text = sqlite3_mprintf("%z, %d", text, table->index_column[number]);
	return text;
}

/* Puts the packed rows in the place of the table; or into it, if they are not in order. */
static void give_packed(sqlite3 *database, const struct packed_table *table)
{
	char *columns = columns_text(database, table->name), *indexes = indexes_text(table);
	char *statements = table->rises
		? sqlite3_mprintf("DROP TABLE %w; CREATE VIRTUAL TABLE %w USING packed(%Q, %s%s)", table->name, table->name,
				  table->packed, columns, indexes)
		: sqlite3_mprintf("CREATE VIRTUAL TABLE temp.unordered USING packed(%Q, %s); INSERT OR REPLACE INTO main.%w"
				  " SELECT * FROM temp.unordered; DROP TABLE temp.unordered", table->packed, columns, table->name);
	run(database, statements);
	sqlite3_free(statements);
	sqlite3_free(columns);
	sqlite3_free(indexes);
	if (!table->rises)
		unlink(table->packed);
}

/* ---- the program */

static void write_copy(int file, const struct schema *schema, const char *path)
{
	for (size_t at = 0; at < schema->length;) {
		ssize_t taken = write(file, schema->bytes + at, schema->length - at);
		if (taken < 0 && errno != EINTR)
			stop("%s: %s", path, strerror(errno));
		at += taken > 0 ? (size_t)taken : 0;
	}
}

/* Makes the file of the database: empty, or with the tables. Others see that who have it open, if it was there. */
static void make_file(const char *path, const struct schema *schema, int how)
{
	int file = open(path, O_WRONLY | O_CREAT | how, 0644);
	if (file < 0)
		stop("%s: %s", path, strerror(errno));
	if (schema->is_database) {
		write_copy(file, schema, path);
		if (ftruncate(file, (off_t)schema->length))
			stop("%s: %s", path, strerror(errno));
	}
	close(file);
}

/* The file has no other user, and is made again if it is not whole: no journal, no waiting for the disk. */
static sqlite3 *opened(const char *path, struct rows **current)
{
	sqlite3 *database = NULL;
	sqlite3_config(SQLITE_CONFIG_SINGLETHREAD);
	sqlite3_config(SQLITE_CONFIG_MEMSTATUS, 0);
	if (sqlite3_open_v2(path, &database, SQLITE_OPEN_READWRITE, NULL) != SQLITE_OK)
		stop("%s: %s", path, sqlite3_errmsg(database));
	sqlite3_create_module(database, "rows", &rows_module, current);
	packed_module_add(database);
	run(database, "PRAGMA page_size=8192; PRAGMA journal_mode=OFF; PRAGMA synchronous=OFF");
	return database;
}

/* What is loaded: the rows of a folder, and a side list, whose other lines go into a file; NULL if there is none. */
struct capture {
	const char *folder, *side, *others;
};

static void load(sqlite3 *database, const char *path, const struct capture *capture, const struct schema *schema,
		 struct packing *packing, struct rows **current)
{
	run(database, "BEGIN");
	if (!schema->is_database)
		run_schema(database, schema);
	begin_packing(database, path, capture->folder, packing);
	struct packed_table *times = packed_of(packing, "side_time");
	if (capture->side)
		load_side_list(database, capture->side, times, capture->others);
	pack_others(packing);
	load_tables(database, capture->folder, packing, current);
	end_packing(packing);
	for (int number = 0; number < packing->tables; number++)
		if (capture->side || &packing->table[number] != times)
			give_packed(database, &packing->table[number]);
	run(database, "COMMIT");
}

static void load_one(const char *path, const struct capture *capture, const struct schema *schema,
		     struct packing *packing)
{
	struct rows *current = NULL;
	make_file(path, schema, O_EXCL);
	sqlite3 *database = opened(path, &current);
	run(database, "PRAGMA locking_mode=EXCLUSIVE");
	load(database, path, capture, schema, packing, &current);
	if (sqlite3_close(database) != SQLITE_OK)
		stop_for(database);
}

/* What standard input has up to a zero byte; NULL at its end. */
static char *asked(void)
{
	char *word = NULL;
	size_t room = 0;
	if (getdelim(&word, &room, '\0', stdin) >= 0)
		return word;
	free(word);
	return NULL;
}

/*
 * SQLite reads the schema once. By the count of changes in the file it sees each time that this is another one: the one
 * before was changed at least once more.
 */
static void load_many(const char *path, const struct schema *schema)
{
	struct rows *current = NULL;
	sqlite3 *database = NULL;
	if (!schema->is_database)
		stop("the schema for many captures is no database");
	for (char *folder; (folder = asked()); free(folder)) {
		char *side = asked();
		struct packing packing = { 0 };
		const struct capture capture = { .folder = folder, .side = side && *side ? side : NULL };
		make_file(path, schema, 0);
		database = database ? database : opened(path, &current);
		load(database, path, &capture, schema, &packing, &current);
		if (putchar('\n') == EOF || fflush(stdout))
			stop("standard output: %s", strerror(errno));
		free(side);
	}
	if (sqlite3_close(database) != SQLITE_OK)
		stop_for(database);
}

static int usage(void)
{
	fputs("usage: load [--pack TABLE [--tell COLUMN] [--by COLUMN | --index COLUMN]..].. DATABASE FOLDER SCHEMA"
	      " [SIDE [OTHERS]]\n"
	      "       load --many DATABASE SCHEMA\n", stderr);
	return 64;
}

/* Takes the words that say which tables are packed. Returns the number of the word after them; 0 if there are too many. */
static int take_packed(struct packing *packing, int count, char **words)
{
	int at = 1;
	for (; at + 1 < count; at += 2) {
		struct packed_table *last = packing->tables ? &packing->table[packing->tables - 1] : NULL;
		if (!strcmp(words[at], "--pack")) {
			if (packing->tables == MOST_PACKED)
				return 0;
			packing->table[packing->tables++].name = words[at + 1];
		} else if (last && !last->told_name && !strcmp(words[at], "--tell")) {
			last->told_name = words[at + 1];
		} else if (last && last->indexes < MOST_COLUMNS
			   && (!strcmp(words[at], "--by") || !strcmp(words[at], "--index"))) {
			last->is_made[last->indexes] = !strcmp(words[at], "--index");
			last->index[last->indexes++] = words[at + 1];
		} else {
			break;
		}
	}
	return at;
}

int main(int count, char **words)
{
	struct packing packing = { 0 };
	int at = take_packed(&packing, count, words);
	if (!at || count - at < 3 || count - at > 5)
		return usage();
	int is_many = count == 4 && !strcmp(words[1], "--many");
	struct schema schema = schema_of(words[is_many ? 3 : at + 2]);
	if (is_many) {
		load_many(words[2], &schema);
	} else {
		const struct capture capture = { words[at + 1], words[at + 3], words[at + 3] ? words[at + 4] : NULL };
		load_one(words[at], &capture, &schema, &packing);
	}
	forget(schema.bytes, schema.length);
	return 0;
}
