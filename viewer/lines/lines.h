/* What the parts of the printer of lines share. */
#include <stdbool.h>
#include <stddef.h>
#include <stdint.h>

/* The statuses of `./listing`. */
enum status { LISTED, NOTHING_THERE, MALFORMED, NO_MEMORY, FAILED };

/* Writes what was printed so far, then a line on standard error, and ends. */
void stop(enum status status, const char *line) __attribute__((noreturn));

/* ---- memory.c */

/* Bytes that grow. */
struct text {
	char *bytes;
	size_t length, room;
};

/* Makes room for so many more. */
void text_reserve(struct text *text, size_t more);
void text_add(struct text *text, const char *bytes, size_t length);

/* Numbers that stand for keys of three numbers. Places are free where `is_taken` is not set. */
struct map {
	size_t taken, places;
	struct map_place {
		uint64_t key[3], number;
		bool is_taken;
	} *place;
};

/* What stands for a key; NULL if nothing does. */
const uint64_t *map_find(const struct map *map, const uint64_t key[3]);
void map_set(struct map *map, const uint64_t key[3], uint64_t number);

/* ---- printed.c: what goes to standard output */

void print_bytes(const char *bytes, size_t length);
void print_word(const char *word);
void print_decimal(uint64_t number);
void print_signed(int64_t number);

/* In hexadecimal: after 0x without leading zeros; or so many digits. */
void print_hexadecimal(uint64_t number);
void print_digits(uint64_t number, int count);

/* The sum of a place and of a distance from it, right-aligned in ten columns. */
void print_place(uint64_t place, uint64_t distance);

/* Writes all. If the reader of standard output has gone, the program ends without a word. */
void print_out(void);

/* ---- rows.c: the rows of the stream */

enum sort { THREAD = 1, INTERFACE, RECORD, OBJECT, WHOLE, SERVICE, MISSING, ENDING };

/* The columns of each sort that are named here; schema.sql says what those of records and of objects mean. */
enum { THREAD_UTID, THREAD_DEVICE, THREAD_PROCESS, THREAD_NUMBER, THREAD_COLUMNS };
enum { NAME_ID, NAME_TEXT, NAME_COLUMNS };
enum { PLACE, SEQ, UTID, KIND, HANDLE, PTR, COOKIE, ADDRESS, CODE, FLAGS, SENDER_PID, SENDER_EUID, DATA_SIZE,
       OFFSETS_SIZE, OFFSETS, EXTRA, ATTACHMENT, STATUS, VALUE, OF_INTERFACE, OF_SERVICE, RECORD_COLUMNS };
enum { OBJECT_PLACE, OBJECT_IDX, OBJECT_OFFSET, OBJECT_SORT, OBJECT_FIRST_FIELD, OBJECT_BINDER = 5, OBJECT_HANDLE,
       OBJECT_COOKIE = 8, OBJECT_BAD = 14, OBJECT_COLUMNS };
enum { FRAME_PLACE, DIRECTION, COMMAND_LENGTH, ATTACHMENT_LENGTH, RECORD_BYTES, ENTRY_PLACE, BODY_LENGTH,
       OFFSETS_LENGTH, ENTRY_BYTES, WHOLE_COLUMNS };
enum { FAULT, FAULT_PLACE, FAULT_PART, PARTS, END_STATUS, ENDING_COLUMNS };

/* A row. A column that is a text has its length as the number, and its bytes are good until the next row is taken. */
struct row {
	enum sort sort;
	uint64_t mask, column[RECORD_COLUMNS];
	const char *text[WHOLE_COLUMNS];
};

static inline bool has(const struct row *row, int column)
{
	return row->mask >> column & 1;
}

/* Takes the next row of the stream, which has all columns that its sort always has. False: the stream has ended. */
bool take_row(int stream, struct row *row);

/* Ends, since the stream is none. */
void stop_for_stream(void) __attribute__((noreturn));

/* ---- fields.c: the fields of records and of objects by name */

/* Four bytes with a sign, without one, eight bytes, those shown in hexadecimal, and flags, which are shown by name. */
enum form { SIGNED, WORD, LONG, HEXADECIMAL, NAMED_FLAGS };

/* A name of a field with what is around it in a line: ` handle=`. The first ones are the columns of `--form tab`. */
struct name {
	const char *word;
	size_t length;
};
enum { TAB_FIELDS = 17 };
extern const struct name field_names[];

/* A field: the number of its name, where it begins in the payload, its form, and the column of the row; -1 of a field
 * that is shown only where its record is shown whole. */
struct field {
	unsigned char name, at;
	enum form form;
	signed char column;
};

/* What records of a kind have. `word` is their code word, `due` has the columns that each of them has. */
struct kind {
	const char *name;
	const struct field *field;
	int fields;
	uint32_t word;
	uint64_t due;
};

/* NULL: there is no such kind. */
const struct kind *kind_of(uint64_t number);
bool is_opaque(uint64_t kind);
bool is_of_read(uint64_t kind);
bool is_reply(uint64_t kind);
uint32_t word_of(const struct row *record);
size_t bytes_of_form(enum form form);
void print_value(enum form form, uint64_t value);

/* The fields of an object stand in the order of its columns, from OBJECT_FIRST_FIELD on. */
struct object_field {
	struct name name;
	enum form form;
};
extern const struct object_field object_fields[];
/* The name of a sort, and the columns that each object of it has. NULL: there is no such sort. */
const char *sort_named(uint64_t sort, uint64_t *due);

/* The name of a cause or of a fault; NULL if there is none of this number. */
const char *cause_named(uint64_t cause);
const char *fault_named(uint64_t fault);
/* The bit of a flag; 0 if there is none of this name. */
uint64_t flag_named(const char *name);

/* ---- asked.c: what is asked for */

enum form_of_lines { WORDS, TAB };

struct numbers {
	size_t count;
	uint64_t *number;
};

enum narrowing { BY_DEVICE, BY_PROCESS, BY_THREAD, BY_FROM, BY_TO, BY_DIRECTION, BY_WORD, BY_HANDLE, BY_COOKIE, BY_NODE,
		 BY_ADDRESS, BY_FLAG, BY_LARGER, NARROWINGS };

struct asked {
	int stream;
	enum form_of_lines form;
	bool objects;
	char place_of;			/* what is looked for by its place: 'a' a record, 'f' a frame, 'c' a call; or 0 */
	bool names;
	const char *side, *methods;	/* files: the side list, and the names of methods */
	struct numbers places, by[NARROWINGS];
	size_t kinds, interfaces;
	const char **kind, **interface;	/* names of records, and of interfaces */
	bool narrows;
};
extern struct asked asked;

/* A thread of the capture. */
struct thread {
	uint64_t device, process, number;
};

void take_options(int count, char **words);

/* Whether a record is asked for, the handles, cookies and nodes left aside: an object may have them too. */
bool is_asked(const struct row *record, const struct thread *thread, const char *interface, size_t length);

/* Those of handles, cookies and nodes that are asked for and that the record does not have, as a bit of each; and those
 * of them that an object does not have either. */
unsigned left_of_record(const struct row *record);
unsigned left_of_object(unsigned left, const struct row *object);

bool number_in(const char *begin, const char *end, uint64_t *number);

/* ---- side.c: the side list */

/* Opens the list, which must begin as one. */
void side_begin(const char *path);

/* What the list says of a frame of a thread, each field with what is before it. Frames come in their order. */
const struct text *side_notes(uint64_t sequence, const struct thread *thread, enum form_of_lines form);

/* ---- names.c */

/* Reads the names of methods. */
void names_open(const char *path);

/* An interface, or a service, has this number. */
void names_of_interface(uint64_t number, const char *interface, size_t length);
void name_service(uint64_t number, const char *name, size_t length);

/* The names of the method and of the service of a record; no word if it has none. */
struct name method_of(const struct row *record);
struct name service_of(const struct row *record);

/* ---- line.c */

/* A record with all that is printed of it. */
struct listed {
	const struct row *record;
	const struct kind *kind;
	const struct thread *thread;
	const char *interface;		/* NULL: it names none */
	size_t interface_length;
};

void print_line(const struct listed *listed);
void print_columns(const struct listed *listed);
void print_object(uint64_t attachment, const struct row *object);
void print_whole(const struct listed *listed, const struct row *whole, const struct row *objects, size_t count);
