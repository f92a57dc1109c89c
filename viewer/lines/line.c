/* The lines of records and of objects. */
#include <endian.h>
#include <stdlib.h>
#include <string.h>

#include "lines.h"

/* The length of a code word, that of the three numbers before an entry's bytes, and that of a row of a dump. */
enum { CODE_WORD = 4, ENTRY_HEADER = 12, DUMPED = 16, DIGITS_OF_WORD = 8, DIGITS_OF_BYTE = 2 };

/* ---- a record */

static void print_numbers(const struct listed *listed, const char *mark)
{
	const uint64_t numbers[] = { listed->record->column[SEQ], listed->thread->device, listed->thread->process,
				     listed->thread->number };
	print_decimal(listed->record->column[PLACE]);
	for (size_t at = 0; at < sizeof numbers / sizeof *numbers; at++) {
		print_bytes(mark, 1);
		print_decimal(numbers[at]);
	}
	print_bytes(mark, 1);
}

static void print_fields(const struct listed *listed)
{
	for (int at = 0; at < listed->kind->fields; at++) {
		const struct field *field = &listed->kind->field[at];
		if (field->column < 0)
			continue;
		print_bytes(field_names[field->name].word, field_names[field->name].length);
		print_value(field->form, listed->record->column[(int)field->column]);
	}
}

/* A name, if there is one. */
static void print_named(const char *before, struct name name)
{
	if (name.word) {
		print_word(before);
		print_bytes(name.word, name.length);
	}
}

void print_line(const struct listed *listed)
{
	print_numbers(listed, " ");
	print_word(listed->kind->name);
	if (is_opaque(listed->record->column[KIND])) {
		print_word(" word=0x");
		print_digits(word_of(listed->record), DIGITS_OF_WORD);
	}
	print_fields(listed);
	if (listed->interface) {
		print_word(" interface=");
		print_bytes(listed->interface, listed->interface_length);
	}
	if (asked.names) {
		print_named(" method=", method_of(listed->record));
		print_named(" service=", service_of(listed->record));
	}
}

static const char *direction_of(bool is_read)
{
	return is_read ? "read" : "write";
}

/* A column for each name of a field: fields are in the order of the columns. */
static void print_field_columns(const struct listed *listed)
{
	int at = 0;
	for (int name = 0; name < TAB_FIELDS; name++) {
		print_bytes("\t", 1);
		while (at < listed->kind->fields && listed->kind->field[at].column < 0)
			at++;
		if (at == listed->kind->fields || listed->kind->field[at].name != name)
			continue;
		print_value(listed->kind->field[at].form, listed->record->column[(int)listed->kind->field[at].column]);
		at++;
	}
}

void print_columns(const struct listed *listed)
{
	print_numbers(listed, "\t");
	print_word(direction_of(is_of_read(listed->record->column[KIND])));
	print_bytes("\t", 1);
	print_word(listed->kind->name);
	print_word("\t0x");
	print_digits(word_of(listed->record), DIGITS_OF_WORD);
	print_field_columns(listed);
	print_bytes("\t", 1);
	if (listed->interface)
		print_bytes(listed->interface, listed->interface_length);
	if (asked.names) {
		print_bytes("\t", 1);
		print_named("", method_of(listed->record));
		print_bytes("\t", 1);
		print_named("", service_of(listed->record));
	}
}

/* ---- an object */

static void print_object_fields(const struct row *object)
{
	uint64_t due;
	print_word(sort_named(object->column[OBJECT_SORT], &due));
	for (int column = OBJECT_FIRST_FIELD; column < OBJECT_BAD; column++) {
		const struct object_field *field = &object_fields[column - OBJECT_FIRST_FIELD];
		if (!(due >> column & 1))
			continue;
		print_bytes(field->name.word, field->name.length);
		print_value(field->form, object->column[column]);
	}
}

void print_object(uint64_t attachment, const struct row *object)
{
	print_word("  ");
	print_place(attachment + ENTRY_HEADER, object->column[OBJECT_OFFSET]);
	print_word("  object ");
	print_decimal(object->column[OBJECT_IDX]);
	print_word(" at ");
	print_decimal(object->column[OBJECT_OFFSET]);
	print_bytes(" ", 1);
	if (has(object, OBJECT_BAD))
		print_word(cause_named(object->column[OBJECT_BAD]));
	else
		print_object_fields(object);
	print_bytes("\n", 1);
}

/* ---- a record that is shown whole */

/* The bytes of a row, in hexadecimal and as text. */
static void print_dumped(const char *bytes, size_t count)
{
	for (size_t at = 0; at < count; at++) {
		print_bytes(" ", at > 0);
		print_digits((unsigned char)bytes[at], DIGITS_OF_BYTE);
	}
	for (size_t at = count; at < DUMPED; at++)
		print_word("   ");
	print_word("  ");
	for (size_t at = 0; at < count; at++)
		print_bytes(bytes[at] >= ' ' && bytes[at] <= '~' ? &bytes[at] : ".", 1);
}

static void print_dump(uint64_t place, const char *bytes, size_t length)
{
	for (size_t at = 0; at < length; at += DUMPED) {
		print_word("  ");
		print_place(place, at);
		print_word("  ");
		print_dumped(bytes + at, length - at < DUMPED ? length - at : DUMPED);
		print_bytes("\n", 1);
	}
}

static uint64_t value_at(const char *bytes, enum form form)
{
	uint64_t eight = 0;
	memcpy(&eight, bytes, bytes_of_form(form));
	eight = le64toh(eight);
	return form == SIGNED ? (uint64_t)(int64_t)(int32_t)eight : eight;
}

/* The fields of a payload, each with its place. */
static void print_payload(const struct listed *listed, const char *payload, size_t length)
{
	for (int at = 0; at < listed->kind->fields; at++) {
		const struct field *field = &listed->kind->field[at];
		if (field->at + bytes_of_form(field->form) > length)
			continue;
		uint64_t value = value_at(payload + field->at, field->form);
		const struct name *name = &field_names[field->name];
		print_word("  ");
		print_place(listed->record->column[PLACE], CODE_WORD + (uint64_t)field->at);
		print_bytes(" ", 1);
		print_bytes(name->word, name->length - 1);
		print_bytes(" ", 1);
		if (field->form == NAMED_FLAGS) {
			print_word("0x");
			print_digits(value, DIGITS_OF_WORD);
			print_bytes(" ", 1);
		}
		print_value(field->form, value);
		print_bytes("\n", 1);
	}
}

/* A word and a number in decimal. */
static void print_counted(const char *word, uint64_t number)
{
	print_word(word);
	print_decimal(number);
}

static void print_entry(const struct row *whole, const struct row *objects, size_t count)
{
	print_counted("attachment at ", whole->column[ENTRY_PLACE]);
	print_counted(": ", whole->column[BODY_LENGTH]);
	print_counted(" body bytes and ", whole->column[OFFSETS_LENGTH]);
	print_word(" offset bytes\n");
	for (size_t at = 0; at < count; at++)
		print_object(whole->column[ENTRY_PLACE], &objects[at]);
	print_dump(whole->column[ENTRY_PLACE], whole->text[ENTRY_BYTES], whole->column[ENTRY_BYTES]);
}

void print_whole(const struct listed *listed, const struct row *whole, const struct row *objects, size_t count)
{
	const char *bytes = whole->text[RECORD_BYTES];
	size_t length = whole->column[RECORD_BYTES];
	print_line(listed);
	print_counted("\nframe at ", whole->column[FRAME_PLACE]);
	print_word(": a ");
	print_word(direction_of(is_of_read(listed->record->column[KIND])));
	print_counted(" of ", whole->column[COMMAND_LENGTH]);
	print_counted(" command bytes and ", whole->column[ATTACHMENT_LENGTH]);
	print_counted(" attachment bytes\nrecord of ", length);
	print_word(" bytes, code word 0x");
	print_digits(word_of(listed->record), DIGITS_OF_WORD);
	print_bytes("\n", 1);
	print_payload(listed, bytes + CODE_WORD, length - CODE_WORD);
	print_dump(listed->record->column[PLACE], bytes, length);
	if (has(whole, ENTRY_PLACE))
		print_entry(whole, objects, count);
}
