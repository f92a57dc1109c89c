/*
 * Prints the records of a capture, a line each, from the stream of rows that binder_tables writes with --lines.
 *
 *     lines [--stream NUMBER] [--form tab] [--objects] [--names] [--methods FILE] [--side FILE] [NARROWING..]
 *
 * The stream comes from the open file of this number, by default from standard input; names.c says what is in the file
 * of methods. The other words are those of ./listing, which says what they mean. Its program that writes the stream is
 * a child of this one: of a stream without an end the status is that of the child, which has said why.
 *
 * Nothing of this is proved: checks/listing/printed.py compares what it prints with a second reading.
 */
#include <signal.h>
#include <stdio.h>
#include <stdlib.h>
#include <string.h>
#include <sys/wait.h>
#include <unistd.h>

#include "lines.h"

enum { BY_SIGNAL = 128, MOST_OF_FRAME = 80 };

/* The threads and the interfaces that came, by their numbers: of each where it stands in the text. */
static struct map threads, interfaces;
static struct text thread_rows, names;

/* Where a name is in `names`. */
struct name_at {
	uint64_t at, length;
};
static struct text name_places;

/* The latest record, and whether it is still to be printed: then what narrows it and nothing of it has yet, as bits, and
 * the objects that came. */
static struct row record;
static struct listed latest;
static struct thread of_thread;
static bool is_held, is_printed;
static unsigned left;
static struct text objects;

/* What is shown whole, with its texts in one of our own. */
static struct row whole;
static struct text whole_texts;
static bool has_whole;

/* The places at which nothing is. */
static struct text missing;

void stop(enum status status, const char *said)
{
	static bool stops;
	if (!stops) {
		stops = true;
		print_out();
	}
	fprintf(stderr, "%s\n", said);
	_exit((int)status);
}

/* ---- what rows are about */

static void take_thread(const struct row *row)
{
	struct thread thread = { row->column[THREAD_DEVICE], row->column[THREAD_PROCESS], row->column[THREAD_NUMBER] };
	map_set(&threads, (uint64_t[]){ row->column[THREAD_UTID], 0, 0 }, thread_rows.length / sizeof thread);
	text_add(&thread_rows, (const char *)&thread, sizeof thread);
}

static void take_interface(const struct row *row)
{
	struct name_at name = { names.length, row->column[NAME_TEXT] };
	text_add(&names, row->text[NAME_TEXT], name.length);
	map_set(&interfaces, (uint64_t[]){ row->column[NAME_ID], 0, 0 }, name_places.length / sizeof name);
	text_add(&name_places, (const char *)&name, sizeof name);
	if (asked.names)
		names_of_interface(row->column[NAME_ID], row->text[NAME_TEXT], name.length);
}

static void take_service(const struct row *row)
{
	if (asked.names)
		name_service(row->column[NAME_ID], row->text[NAME_TEXT], row->column[NAME_TEXT]);
}

/* Sees to the thread of the record: that of the record before is mostly the same. */
static void find_thread(void)
{
	static uint64_t utid;
	if (latest.thread && utid == record.column[UTID])
		return;
	utid = record.column[UTID];
	const uint64_t *number = map_find(&threads, (uint64_t[]){ utid, 0, 0 });
	if (!number)
		stop_for_stream();
	of_thread = ((const struct thread *)(void *)thread_rows.bytes)[*number];
	latest.thread = &of_thread;
}

/* Sees to the interface of the record: a reply is not listed with one. */
static void find_interface(void)
{
	latest.interface = NULL;
	latest.interface_length = 0;
	if (!has(&record, OF_INTERFACE) || is_reply(record.column[KIND]))
		return;
	const uint64_t *number = map_find(&interfaces, (uint64_t[]){ record.column[OF_INTERFACE], 0, 0 });
	if (!number)
		stop_for_stream();
	const struct name_at *name = (const struct name_at *)(void *)name_places.bytes + *number;
	latest.interface = names.bytes + name->at;
	latest.interface_length = name->length;
}

/* ---- lines */

/* What the side list says of the frame: it is the same for all records of the frame. */
static void print_notes(void)
{
	static const struct text *notes;
	static uint64_t sequence;
	if (!asked.side)
		return;
	if (!notes || sequence != record.column[SEQ])
		notes = side_notes(sequence = record.column[SEQ], latest.thread, asked.form);
	print_bytes(notes->bytes, notes->length);
}

static void print_record(void)
{
	is_printed = true;
	if (asked.form == TAB)
		print_columns(&latest);
	else
		print_line(&latest);
	print_notes();
	print_bytes("\n", 1);
}

static void print_held_objects(void)
{
	const struct row *held = (const struct row *)(void *)objects.bytes;
	for (size_t count = objects.length / sizeof *held; count; count--, held++)
		print_object(record.column[ATTACHMENT], held);
	objects.length = 0;
}

static bool is_within(uint64_t place, uint64_t begin, uint64_t length)
{
	return place >= begin && place - begin < length;
}

static bool is_covered(uint64_t place)
{
	return is_within(place, record.column[PLACE], whole.column[RECORD_BYTES])
		|| (has(&whole, ENTRY_PLACE) && is_within(place, whole.column[ENTRY_PLACE], whole.column[ENTRY_BYTES]));
}

/* Takes out the places that the record has. Returns whether there were any. */
static bool take_covered(void)
{
	size_t kept = 0, before = asked.places.count;
	for (size_t at = 0; at < before; at++)
		if (!is_covered(asked.places.number[at]))
			asked.places.number[kept++] = asked.places.number[at];
	asked.places.count = kept;
	return kept < before;
}

/* Nothing more comes of the latest record. */
static void end_record(void)
{
	if (is_held && asked.place_of == 'a') {
		if (!has_whole)
			stop_for_stream();
		if (!left && take_covered())
			print_whole(&latest, &whole, (const struct row *)(void *)objects.bytes, objects.length / sizeof whole);
	}
	objects.length = 0;
	is_held = is_printed = has_whole = false;
}

/* ---- rows of records */

static void take_record(const struct row *row)
{
	end_record();
	record = *row;
	latest.record = &record;
	latest.kind = kind_of(record.column[KIND]);
	if (!latest.kind || (record.mask & latest.kind->due) != latest.kind->due)
		stop_for_stream();
	find_thread();
	find_interface();
	if (!is_asked(&record, latest.thread, latest.interface, latest.interface_length))
		return;
	left = left_of_record(&record);
	if (asked.place_of == 'a' || left)
		is_held = true;
	else
		print_record();
}

static bool is_good_object(const struct row *object)
{
	uint64_t due;
	if (has(object, OBJECT_BAD))
		return cause_named(object->column[OBJECT_BAD]) != NULL;
	return has(object, OBJECT_SORT) && sort_named(object->column[OBJECT_SORT], &due) && (object->mask & due) == due;
}

static void take_object(const struct row *object)
{
	if (!latest.record || !has(&record, ATTACHMENT) || object->column[OBJECT_PLACE] != record.column[PLACE]
	    || !is_good_object(object))
		stop_for_stream();
	if (is_printed) {
		if (asked.objects)
			print_object(record.column[ATTACHMENT], object);
		return;
	}
	if (!is_held)
		return;
	left = left_of_object(left, object);
	if (asked.objects || asked.place_of == 'a')
		text_add(&objects, (const char *)object, sizeof *object);
	if (left || asked.place_of == 'a')
		return;
	is_held = false;
	print_record();
	print_held_objects();
}

/* Keeps what is shown whole, since objects come after it. */
static void take_whole(const struct row *row)
{
	enum { OF_ENTRY = 1 << ENTRY_PLACE | 1 << BODY_LENGTH | 1 << OFFSETS_LENGTH | 1 << ENTRY_BYTES };
	uint64_t of_entry = row->mask & OF_ENTRY;
	if (!latest.record || has_whole || row->column[RECORD_BYTES] < sizeof(uint32_t) || (of_entry && of_entry != OF_ENTRY)
	    || !of_entry == has(&record, ATTACHMENT))
		stop_for_stream();
	has_whole = true;
	if (!is_held)
		return;
	whole = *row;
	whole_texts.length = 0;
	text_add(&whole_texts, row->text[RECORD_BYTES], row->column[RECORD_BYTES]);
	if (of_entry)
		text_add(&whole_texts, row->text[ENTRY_BYTES], row->column[ENTRY_BYTES]);
	whole.text[RECORD_BYTES] = whole_texts.bytes;
	whole.text[ENTRY_BYTES] = whole_texts.bytes + row->column[RECORD_BYTES];
}

/* ---- the end */

/* Names the places at which nothing is: of records those that no line was printed for, of others those of the stream. */
static enum status tell_missing(void)
{
	const uint64_t *place = asked.place_of == 'a' ? asked.places.number : (const uint64_t *)(void *)missing.bytes;
	size_t count = asked.place_of == 'a' ? asked.places.count : missing.length / sizeof *place;
	for (size_t at = 0; at < count; at++)
		fprintf(stderr, "listing: %s %llu\n", asked.place_of == 'a' ? "no record has the byte at"
			: asked.place_of == 'f' ? "no frame has the byte at" : "no call has its opener at",
			(unsigned long long)place[at]);
	return count ? NOTHING_THERE : LISTED;
}

static enum status end_lines(const struct row *ending)
{
	end_record();
	if (!has(ending, FAULT)) {
		print_out();
		return tell_missing();
	}
	const char *fault = fault_named(ending->column[FAULT]);
	if (!fault || !has(ending, FAULT_PLACE) || !has(ending, FAULT_PART))
		stop_for_stream();
	print_word("malformed ");
	print_word(fault);
	print_word(" at ");
	print_decimal(ending->column[FAULT_PLACE]);
	if (ending->column[PARTS] > 1) {
		print_word(" in part ");
		print_decimal(ending->column[FAULT_PART]);
	}
	print_bytes("\n", 1);
	print_out();
	return MALFORMED;
}

/* The stream has no end: the program that writes it has said why, if it is a child of this one. */
static enum status status_of_child(void)
{
	int status;
	print_out();
	if (wait(&status) < 0 || (WIFEXITED(status) && !WEXITSTATUS(status)))
		stop_for_stream();
	return (enum status)(WIFEXITED(status) ? WEXITSTATUS(status) : BY_SIGNAL + WTERMSIG(status));
}

/* What the program says of a capture comes before what is said of these. */
static void open_files(void)
{
	if (asked.side)
		side_begin(asked.side);
	if (asked.methods)
		names_open(asked.methods);
}

static enum status list(void)
{
	struct row row;
	bool is_begun = false;
	while (take_row(asked.stream, &row)) {
		if (!is_begun)
			open_files();
		is_begun = true;
		switch (row.sort) {
		case THREAD: take_thread(&row); break;
		case INTERFACE: take_interface(&row); break;
		case RECORD: take_record(&row); break;
		case OBJECT: take_object(&row); break;
		case WHOLE: take_whole(&row); break;
		case SERVICE: take_service(&row); break;
		case MISSING: text_add(&missing, (const char *)&row.column[0], sizeof row.column[0]); break;
		case ENDING: return end_lines(&row);
		}
	}
	return status_of_child();
}

int main(int count, char **words)
{
	signal(SIGPIPE, SIG_IGN);
	take_options(count - 1, words + 1);
	return (int)list();
}
