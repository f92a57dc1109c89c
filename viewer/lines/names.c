/*
 * The names of methods, by interface and code, and those of services. Those of methods stand in a file that
 * viewer/lines/named.py writes, a line each: interface, code and name, with tabs between them. As an interface stands `*`
 * for each one that is not of HIDL, and `-` for none. Of lines with the same interface and code the last one holds.
 */
#include <errno.h>
#include <stdio.h>
#include <stdlib.h>
#include <string.h>

#include "lines.h"

/* What a key of a method has for an interface, and for none; and the two keys of a service. */
enum { OF_AN_INTERFACE, OF_NONE };
enum { SERVICE_AT, SERVICE_LENGTH };

/* Where words are in `words`, since these move. */
struct method {
	size_t interface, interface_length, name, name_length;
	uint64_t code;
};

static struct text words, methods, service_words;
static struct map of_codes, services;

/* ---- the file */

static void stop_for_names(void)
{
	stop(FAILED, "listing: the names of methods are not as they are written");
}

/* Whether nothing but letters, digits, `_` and `$` is there. */
static bool is_identifier(const char *at, const char *end)
{
	bool is_any = at < end;
	for (; at < end; at++)
		if (!(*at >= '0' && *at <= '9') && !(*at >= 'A' && *at <= 'Z') && !(*at >= 'a' && *at <= 'z') && *at != '_'
		    && *at != '$')
			return false;
	return is_any;
}

static const char *tab_in(const char *at, const char *end)
{
	const char *tab = memchr(at, '\t', (size_t)(end - at));
	if (!tab)
		stop_for_names();
	return tab;
}

static size_t keep(const char *at, const char *end)
{
	size_t kept = words.length;
	text_add(&words, at, (size_t)(end - at));
	return kept;
}

static void take_line(const char *at, const char *end)
{
	const char *code = tab_in(at, end) + 1, *name = tab_in(code, end) + 1;
	struct method method = { .interface_length = (size_t)(code - 1 - at), .name_length = (size_t)(end - name) };
	if (!number_in(code, name - 1, &method.code) || !is_identifier(name, end))
		stop_for_names();
	method.interface = keep(at, code - 1);
	method.name = keep(name, end);
	text_add(&methods, (const char *)&method, sizeof method);
}

static const struct method *method_at(size_t number)
{
	return (const struct method *)(void *)methods.bytes + number;
}

static bool is_word(const char *bytes, size_t length, const char *word)
{
	return length == strlen(word) && !memcmp(bytes, word, length);
}

/* Gives a number to the methods of no interface. */
static void find_of_none(void)
{
	for (size_t at = 0; at < methods.length / sizeof(struct method); at++)
		if (is_word(words.bytes + method_at(at)->interface, method_at(at)->interface_length, "-"))
			map_set(&of_codes, (uint64_t[]){ 0, method_at(at)->code, OF_NONE }, at);
}

void names_open(const char *path)
{
	char *line = NULL;
	size_t room = 0;
	ssize_t length;
	FILE *file = fopen(path, "re");
	if (!file)
		stop(FAILED, "fault Open");
	errno = 0;
	while ((length = getline(&line, &room, file)) > 0)
		take_line(line, line + length - (line[length - 1] == '\n'));
	if (ferror(file) || errno == ENOMEM)
		stop(errno == ENOMEM ? NO_MEMORY : FAILED, errno == ENOMEM ? "fault Memory" : "fault Read");
	free(line);
	fclose(file);
	find_of_none();
}

/* ---- names by number */

/* Whether a method is one of an interface. */
static bool is_method_of(const struct method *method, const char *interface, size_t length, bool is_of_hidl)
{
	const char *of = words.bytes + method->interface;
	return (method->interface_length == length && !memcmp(of, interface, length))
		|| (!is_of_hidl && is_word(of, method->interface_length, "*"));
}

static bool has_colons(const char *at, size_t length)
{
	while (length >= 2 && (at[0] != ':' || at[1] != ':')) {
		at++;
		length--;
	}
	return length >= 2;
}

void names_of_interface(uint64_t number, const char *interface, size_t length)
{
	bool is_of_hidl = has_colons(interface, length);
	for (size_t at = 0; at < methods.length / sizeof(struct method); at++)
		if (is_method_of(method_at(at), interface, length, is_of_hidl))
			map_set(&of_codes, (uint64_t[]){ number, method_at(at)->code, OF_AN_INTERFACE }, at);
}

void name_service(uint64_t number, const char *name, size_t length)
{
	map_set(&services, (uint64_t[]){ number, SERVICE_AT, 0 }, service_words.length);
	map_set(&services, (uint64_t[]){ number, SERVICE_LENGTH, 0 }, length);
	text_add(&service_words, name, length);
}

struct name method_of(const struct row *record)
{
	bool has_interface = has(record, OF_INTERFACE);
	if (!has(record, CODE) || is_reply(record->column[KIND]))
		return (struct name){ NULL, 0 };
	const uint64_t *number = map_find(&of_codes, (uint64_t[]){ has_interface ? record->column[OF_INTERFACE] : 0,
							  record->column[CODE], has_interface ? OF_AN_INTERFACE : OF_NONE });
	if (!number)
		return (struct name){ NULL, 0 };
	return (struct name){ words.bytes + method_at(*number)->name, method_at(*number)->name_length };
}

struct name service_of(const struct row *record)
{
	if (!has(record, OF_SERVICE))
		return (struct name){ NULL, 0 };
	const uint64_t *at = map_find(&services, (uint64_t[]){ record->column[OF_SERVICE], SERVICE_AT, 0 });
	const uint64_t *length = map_find(&services, (uint64_t[]){ record->column[OF_SERVICE], SERVICE_LENGTH, 0 });
	if (!at || !length)
		stop_for_stream();
	return (struct name){ service_words.bytes + *at, *length };
}
