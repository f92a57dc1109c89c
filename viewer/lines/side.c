/*
 * What a side list says: the times of frames, and the ids and names of processes and threads. It is read as far as the
 * frames go.
 */
#include <inttypes.h>
#include <stdio.h>
#include <string.h>

#include "../database/side_reader.h"
#include "lines.h"

/* The first line of each form that is read begins so, and ends in one of these. */
#define FIRST "binder side list "
#define VERSIONS "123"
enum { MOST_DIGITS = 20 };

/* Characters from one place to another. */
struct part {
	const char *at, *end;
};

/* Characters of `words`, since these move. */
struct span {
	size_t at, end;
};

/* A thread of the system. */
struct person {
	struct span pid, tid, name;
};

static struct side_reader list;
/* Nothing more is read: the list has ended, in a line that was cut, or has a line that is too long. */
static bool has_ended;

/* All ids and names, and those of threads and processes. */
static struct text words, persons, spans;
static struct map threads, processes;

/* The latest frame, and where its line goes on. */
static bool has_frame;
static struct side_frame latest;

/* ---- words of a line */

/* The word up to the first space; `rest` is what comes after that space. */
static struct part first_word(struct part in, struct part *rest)
{
	const char *space = in.at < in.end ? memchr(in.at, ' ', (size_t)(in.end - in.at)) : NULL;
	*rest = (struct part){ space ? space + 1 : in.end, in.end };
	return (struct part){ in.at, space ? space : in.end };
}

static bool is_word(struct part in, const char *word)
{
	return side_after_word(in.at, in.end, word) == in.end;
}

/* What comes after a key, to the end of the line. */
static bool after(struct part in, const char *key, struct part *value)
{
	for (; in.at < in.end; first_word(in, &in)) {
		const char *behind = side_after_word(in.at, in.end, key);
		if (behind) {
			*value = (struct part){ behind, in.end };
			return true;
		}
	}
	return false;
}

/* Takes the number with which fields begin. */
static bool take_number(struct part *fields, uint64_t *number)
{
	struct part word = first_word(*fields, fields);
	return side_after_number(word.at, word.end, number) == word.end && *number <= UINT32_MAX;
}

static struct span keep(struct part part)
{
	size_t at = words.length;
	text_add(&words, part.at, (size_t)(part.end - part.at));
	return (struct span){ at, words.length };
}

static bool is_kept(struct span span, struct part part)
{
	size_t length = (size_t)(part.end - part.at);
	return span.end - span.at == length && !memcmp(words.bytes + span.at, part.at, length);
}

/* ---- names */

static void take_process(struct part fields)
{
	uint64_t device, number;
	struct part name;
	if (!take_number(&fields, &device) || !take_number(&fields, &number) || !after(fields, "name=", &name))
		return;
	struct span span = keep(name);
	map_set(&processes, (uint64_t[]){ device, number, 0 }, spans.length / sizeof span);
	text_add(&spans, (const char *)&span, sizeof span);
}

/* The ids and the name of a thread, if the fields have all three. */
static bool take_named(struct part fields, struct part *pid, struct part *tid, struct part *name)
{
	struct part rest;
	if (!after(fields, "pid=", pid) || !after(fields, "tid=", tid) || !after(fields, "name=", name))
		return false;
	*pid = first_word(*pid, &rest);
	*tid = first_word(*tid, &rest);
	return true;
}

static void take_thread(struct part fields)
{
	uint64_t key[3];
	struct part pid, tid, name;
	if (!take_number(&fields, &key[0]) || !take_number(&fields, &key[1]) || !take_number(&fields, &key[2])
	    || !take_named(fields, &pid, &tid, &name))
		return;
	struct person person = { keep(pid), keep(tid), keep(name) };
	map_set(&threads, key, persons.length / sizeof person);
	text_add(&persons, (const char *)&person, sizeof person);
}

static void rename_threads(struct part fields)
{
	struct part pid, tid, name;
	if (!take_named(fields, &pid, &tid, &name))
		return;
	struct span span = keep(name);
	struct person *person = (struct person *)(void *)persons.bytes;
	for (size_t left = persons.length / sizeof *person; left; left--, person++)
		if (is_kept(person->pid, pid) && is_kept(person->tid, tid))
			person->name = span;
}

/* ---- lines */

/* How many bytes a character of UTF-8 has that begins with this one; 0 if none does. `least` and `most` bound the second
 * byte. */
static size_t length_of(unsigned char first, unsigned char *least, unsigned char *most)
{
	*least = first == 0xe0 ? 0xa0 : first == 0xf0 ? 0x90 : 0x80;
	*most = first == 0xed ? 0x9f : first == 0xf4 ? 0x8f : 0xbf;
	return first < 0x80 ? 1 : first < 0xc2 ? 0 : first < 0xe0 ? 2 : first < 0xf0 ? 3 : first < 0xf5 ? 4 : 0;
}

static bool is_character(const unsigned char *at, size_t length, unsigned char least, unsigned char most)
{
	if (length > 1 && (at[1] < least || at[1] > most))
		return false;
	for (size_t byte = 2; byte < length; byte++)
		if ((at[byte] & 0xc0) != 0x80)
			return false;
	return true;
}

static bool is_utf8(const char *bytes, size_t left)
{
	const unsigned char *at = (const unsigned char *)bytes;
	for (size_t length; left; at += length, left -= length) {
		unsigned char least, most;
		length = length_of(*at, &least, &most);
		if (!length || length > left || !is_character(at, length, least, most))
			return false;
	}
	return true;
}

/* Reads the next line. Returns whether there is one. */
static bool read_line(void)
{
	enum side_came came = has_ended ? SIDE_END : side_next_line(&list);
	if (came == SIDE_NO_MEMORY)
		stop(NO_MEMORY, "fault Memory");
	if (came == SIDE_UNREADABLE)
		stop(FAILED, "fault Read");
	has_ended = came != SIDE_LINE;
	return !has_ended;
}

/* Takes the line. One of another sort is skipped, and one that is no UTF-8. */
static void take_line(void)
{
	struct side_frame frame;
	if (side_first_frame(&list, &frame)) {
		has_frame = true;
		latest = frame;
		return;
	}
	if (!is_utf8(list.line, list.length))
		return;
	struct part fields, word, in = { list.line, list.line + list.length };
	first_word(in, &fields);
	word = first_word(fields, &fields);
	if (is_word(word, "process"))
		take_process(fields);
	else if (is_word(word, "thread"))
		take_thread(fields);
	else if (is_word(word, "name"))
		rename_threads(fields);
}

void side_begin(const char *path)
{
	if (!side_open(&list, path))
		stop(FAILED, "fault Open");
	const char *version = read_line() ? side_after_word(list.line, list.line + list.length, FIRST) : NULL;
	if (!version || version + 1 != list.line + list.length || !memchr(VERSIONS, *version, strlen(VERSIONS)))
		stop(FAILED, "listing: the side list is not of version 1, 2 or 3");
}

/* Reads on to the line of the frame with this sequence, or of the first frame after it. */
static void go_to(uint64_t sequence)
{
	while (!has_frame || latest.number < sequence) {
		if (side_next_frame(&latest))
			continue;
		latest.at = NULL;	/* the line goes */
		if (!read_line())
			break;
		take_line();
	}
}

/* ---- what is said of a frame */

/*
 * How many bytes a sign has that begins here and that a terminal obeys, or that hides or turns others: controls, marks of
 * direction, ends of lines; 0 if none does. ./record writes controls as numbers, but a list may be by somebody else.
 */
static size_t sign_at(const unsigned char *at, size_t left)
{
	if (*at < 0x20 || *at == 0x7f)
		return *at != '\t' && *at != '\n';
	if (left >= 2 && ((*at == 0xc2 && at[1] < 0xa0) || (*at == 0xd8 && at[1] == 0x9c)))
		return 2;
	if (left < 3)
		return 0;
	bool hides = *at == 0xe2 && ((at[1] == 0x80 && ((at[2] >= 0x8b && at[2] <= 0x8f) || (at[2] >= 0xa8 && at[2] <= 0xae)))
				     || (at[1] == 0x81 && at[2] >= 0xa0 && at[2] <= 0xaf));
	return hides || (*at == 0xef && at[1] == 0xbb && at[2] == 0xbf) ? 3 : 0;
}

/* Adds a word with a `?` for each such sign. */
static void add_without_signs(struct text *text, const char *bytes, size_t left)
{
	const unsigned char *at = (const unsigned char *)bytes;
	text_reserve(text, left);
	while (left) {
		size_t sign = sign_at(at, left), length = sign ? sign : 1;
		text->bytes[text->length++] = sign ? '?' : (char)*at;
		at += length;
		left -= length;
	}
}

static void add_noted(struct text *notes, enum form_of_lines form, const char *mark, const char *bytes, size_t length)
{
	text_add(notes, form == TAB ? "\t" : mark, form == TAB ? 1 : strlen(mark));
	add_without_signs(notes, bytes, length);
}

static void add_span(struct text *notes, enum form_of_lines form, const char *mark, const struct span *span)
{
	add_noted(notes, form, mark, span ? words.bytes + span->at : "", span ? span->end - span->at : 0);
}

const struct text *side_notes(uint64_t sequence, const struct thread *thread, enum form_of_lines form)
{
	static struct text notes;
	go_to(sequence);
	const uint64_t *of_thread = map_find(&threads, (uint64_t[]){ thread->device, thread->process, thread->number });
	const uint64_t *of_process = map_find(&processes, (uint64_t[]){ thread->device, thread->process, 0 });
	const struct person *person = of_thread ? (const struct person *)(void *)persons.bytes + *of_thread : NULL;
	notes.length = 0;
	char time[MOST_DIGITS + 1] = "";
	if (has_frame && latest.number == sequence)
		sprintf(time, "%" PRIu64, latest.time);
	add_noted(&notes, form, " time=", time, strlen(time));
	add_span(&notes, form, " pid=", person ? &person->pid : NULL);
	add_span(&notes, form, " tid=", person ? &person->tid : NULL);
	add_span(&notes, form, " thread=", person ? &person->name : NULL);
	add_span(&notes, form, " process=", of_process ? (const struct span *)(void *)spans.bytes + *of_process : NULL);
	return &notes;
}
