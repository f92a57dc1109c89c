#define _GNU_SOURCE
#include "trigger_words.h"
#include "logcat.h"
#include "names.h"
#include <stdlib.h>
#include <string.h>

#define SECOND 1000000000u
#define LONGEST_LIMIT (3600ull * SECOND)
#define SHORTEST_LIMIT (SECOND / 10)
#define MOST_REFUSED 1000000u

struct asked_triggers asked_triggers;

/* Takes `5s`, `0.5s` or `500ms`. */
static u64 time_of(const char *kind, const char *text)
{
	char *rest;
	double count = strtod(text, &rest), scale = !strcmp(rest, "ms") ? 1e6 : !strcmp(rest, "s") ? 1e9 : 0;
	double nanoseconds = count * scale;
	if (strspn(text, "0123456789.") != (size_t)(rest - text) || rest == text ||
	    !(nanoseconds >= SHORTEST_LIMIT && nanoseconds <= LONGEST_LIMIT))
		refuse("--keep-on %s takes a time from 0.1s to 3600s, as in %s:5s or %s:500ms, not %s", kind, kind, kind, text);
	return (u64)nanoseconds;
}

static u64 rate_of(const char *text)
{
	char *rest;
	u64 count = strtoull(text, &rest, 10);
	if (strspn(text, "0123456789") != (size_t)(rest - text) || strcmp(rest, "/s") || !count || count > MOST_REFUSED)
		refuse("--keep-on refused takes a number from 1 to %u and /s, as in refused:100/s, not %s", MOST_REFUSED, text);
	return count;
}

static const char *log_of(const char *text)
{
	const char *wrong = logcat_expect(text);
	if (wrong)
		refuse("--keep-on logcat takes a regular expression, not %s: %s", text, wrong);
	return text;
}

static const char *name_of(const char *text)
{
	if (strlen(text) >= COMMAND_BYTES)
		refuse("--keep-on death takes a name of at most %u bytes", COMMAND_BYTES - 1);
	return text;
}

/* What follows the word and a colon, or NULL if that is another word. */
static const char *after(const char *word, const char *kind)
{
	size_t length = strlen(kind);
	return !strncmp(word, kind, length) && word[length] == ':' && word[length + 1] ? word + length + 1 : NULL;
}

static void refuse_two(int is_there, const char *what)
{
	if (is_there)
		refuse("%s is given twice", what);
}

void triggers_add(const char *word)
{
	const char *rest;
	if ((rest = after(word, "hang"))) {
		refuse_two(asked_triggers.hang != 0, "--keep-on hang");
		asked_triggers.hang = time_of("hang", rest);
	} else if ((rest = after(word, "pool"))) {
		refuse_two(asked_triggers.pool != 0, "--keep-on pool");
		asked_triggers.pool = time_of("pool", rest);
	} else if ((rest = after(word, "refused"))) {
		refuse_two(asked_triggers.refused != 0, "--keep-on refused");
		asked_triggers.refused = rate_of(rest);
	} else if ((rest = after(word, "death"))) {
		refuse_two(asked_triggers.death != NULL, "--keep-on death");
		asked_triggers.death = name_of(rest);
	} else if ((rest = after(word, "logcat"))) {
		refuse_two(asked_triggers.log != NULL, "--keep-on logcat");
		asked_triggers.log = log_of(rest);
	} else {
		refuse("--keep-on takes hang:TIME, pool:TIME, refused:COUNT/s, death:NAME or logcat:EXPRESSION, not %s", word);
	}
}

void triggers_add_file(const char *path)
{
	refuse_two(asked_triggers.file != NULL, "--keep-when-file");
	asked_triggers.file = path;
}

int triggers_are_asked(void)
{
	return asked_triggers.hang || asked_triggers.pool || asked_triggers.refused || asked_triggers.death ||
	       asked_triggers.log || asked_triggers.file;
}
