#include "narrowed.h"
#include "messages.h"
#include "side.h"
#include <stdio.h>
#include <string.h>

#define LONGEST_VALUE 255u		/* the longest name of a file; no process is called by more */
#define MORE_BYTES sizeof ",more:4294967295"

static struct {
	char text[NARROWED_BYTES];
	size_t used;
	u32 words, more;		/* more: those without room */
} field;

/* A space ends a field, and a comma a word of this one, so neither stays as it is. */
static void clean_word(char *to, const char *from)
{
	char clean[4 * LONGEST_VALUE + 1];
	clean_name(clean, from, LONGEST_VALUE);
	for (const char *at = clean; *at; at++) {
		if (*at == ' ' || *at == ',')
			to += sprintf(to, "\\x%02x", (unsigned char)*at);
		else
			*to++ = *at;
	}
	*to = 0;
}

static void add(const char *what, const char *value)
{
	char word[4 * LONGEST_VALUE + 1];
	clean_word(word, value);
	if (field.used + strlen(what) + strlen(word) + 2 + MORE_BYTES > sizeof field.text)
		field.more++;
	else
		field.used += (size_t)sprintf(field.text + field.used, "%s%s:%s", field.words++ ? "," : "", what, word);
}

static void add_process(u32 process)
{
	char word[sizeof "4294967295"];
	snprintf(word, sizeof word, "%u", process);
	add("pid", word);
}

/* A device is called as in the lines of devices, without folders. */
static void add_device(const char *path)
{
	const char *slash = strrchr(path, '/');
	add("device", slash ? slash + 1 : path);
}

const char *narrowed_field(const struct options *options)
{
	memset(&field, 0, sizeof field);
	field.used = (size_t)sprintf(field.text, " narrowed=");
	for (u32 i = 0; i < options->process_count; i++)
		add_process(options->processes[i]);
	for (u32 i = 0; i < options->called_count; i++)
		add("only", options->called[i]);
	for (u32 i = 0; i < options->device_count; i++)
		add_device(options->devices[i]);
	if (field.more)
		sprintf(field.text + field.used, ",more:%u", field.more);
	return field.words ? field.text : "";
}
