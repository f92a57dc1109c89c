#define _GNU_SOURCE
#include "command.h"
#include "process.h"
#include "side.h"
#include "table.h"
#include "worker.h"
#include <stdio.h>
#include <stdlib.h>
#include <string.h>

/* A command line that the program in the kernel could not read, and that is read from the process. */
struct reading {
	struct job job;
	u32 process, unused;
	u64 start;
	struct command command;
};

struct kept {
	u64 after;
	u32 user, bytes;
	char *text;			/* NULL: none is known */
	const struct reading *awaited;	/* none if another one came meanwhile */
};

static struct table kept;		/* by opening: the address */
static int is_redacted;
static struct worker worker = WORKER;

void command_redact(void)
{
	is_redacted = 1;
}

/* NULL if nothing is kept of it. */
static struct kept *kept_if(u32 opening)
{
	return table_thing(&kept, opening, 0);
}

static struct kept *kept_of(u32 opening)
{
	struct kept *k = kept_if(opening);
	if (k)
		return k;
	k = allocate(sizeof *k);
	*table_make(&kept, opening, 0) = (u64)(uintptr_t)k;
	return k;
}

/* The part of a command line that is kept. */
struct part {
	const char *text;
	u32 bytes;
};

/* What may be secret is left out: all words but the first one, its folders, and of a title that a program wrote over its
 * command line what comes after a space. Of a path the slash stays before the name of the program. What has a slash and
 * a space may be a folder's name up to the space, and what is cut may end with one: nothing of it is kept. */
static struct part name_of_program(const char *text, u32 bytes)
{
	u32 word = (u32)strnlen(text, bytes), name = 0;
	const char *slash = memrchr(text, '/', word);
	int is_cut = word == COMMAND_BYTES;
	while (name < word && (unsigned char)text[name] > ' ')
		name++;
	if (!slash)
		return (struct part){ text, name };
	if (name < word || is_cut)
		return (struct part){ text, 0 };
	return (struct part){ slash, (u32)(text + word - slash) };
}

static struct part part_of(const struct command *command)
{
	u32 bytes = command->bytes < COMMAND_BYTES ? command->bytes : COMMAND_BYTES;
	if (is_redacted)
		return name_of_program(command->text, bytes);
	while (bytes && !command->text[bytes - 1])
		bytes--;
	return (struct part){ command->text, bytes };
}

static void read_process(struct job *job)
{
	struct reading *reading = (struct reading *)job;
	reading->command.bytes = (u32)process_read(reading->process, reading->start, "cmdline", reading->command.text,
						   COMMAND_BYTES);
}

int command_read(const struct command *command, u32 process, u64 start)
{
	struct reading *reading = allocate(sizeof *reading);
	*reading = (struct reading){ .job = { .work = read_process }, .process = process, .start = start,
				     .command = *command };
	int is_asked = worker_ask(&worker, &reading->job);
	if (is_asked)
		kept_of(command->head.opening)->awaited = reading;
	else
		free(reading);
	return is_asked;
}

int command_was_read(struct command *command)
{
	struct reading *reading;
	int is_awaited = 0;
	while (!is_awaited && (reading = (struct reading *)worker_take(&worker)) != NULL) {
		const struct kept *k = kept_if(reading->command.head.opening);
		is_awaited = k && k->awaited == reading;
		*command = reading->command;
		free(reading);
	}
	return is_awaited;
}

u32 command_awaited(void)
{
	return worker.awaited;
}

int command_is_awaited(u32 opening)
{
	const struct kept *k = kept_if(opening);
	return k && k->awaited;
}

int command_give_up(u32 opening, struct command *command)
{
	if (!command_is_awaited(opening))
		return 0;
	const struct reading *reading = kept_if(opening)->awaited;
	*command = (struct command){ .head = reading->command.head, .user = reading->command.user };
	return 1;
}

int command_keep(const struct command *command)
{
	struct kept *k = kept_of(command->head.opening);
	struct part part = part_of(command);
	k->awaited = NULL;
	if (k->text && k->user == command->user && k->bytes == part.bytes && !memcmp(k->text, part.text, part.bytes))
		return 0;
	k->after = command->head.number;
	k->user = command->user;
	k->bytes = part.bytes;
	k->text = resize(k->text, part.bytes);
	memcpy(k->text, part.text, part.bytes);
	return 1;
}

const char *command_line(u32 opening, u32 device, u32 process)
{
	static char line[4 * COMMAND_BYTES + 128];
	const struct kept *k = kept_if(opening);
	if (!k || !k->text)
		return NULL;
	int head = snprintf(line, sizeof line, "command %u %u after=%llu uid=%u name=", device, process,
			    (unsigned long long)k->after, k->user);
	clean_bytes(line + head, k->text, k->bytes);
	return line;
}

u32 command_program(u32 opening, const char **begin)
{
	const struct kept *k = kept_if(opening);
	u32 word = k && k->text ? (u32)strnlen(k->text, k->bytes) : 0;
	const char *slash = word ? memrchr(k->text, '/', word) : NULL;
	*begin = slash ? slash + 1 : word ? k->text : NULL;
	return word ? (u32)(k->text + word - *begin) : 0;
}

int command_is_called(u32 opening, const char *name)
{
	const char *begin;
	u32 length = command_program(opening, &begin);
	return length && strlen(name) == length && !memcmp(begin, name, length);
}

void command_forget(u32 opening)
{
	struct kept *k = kept_if(opening);
	if (!k)
		return;
	table_drop(&kept, opening, 0);
	free(k->text);
	free(k);
}
