#include "options.h"
#include "messages.h"
#include "parts.h"
#include "trigger_words.h"
#include <errno.h>
#include <getopt.h>
#include <stdio.h>
#include <stdlib.h>
#include <string.h>

#include "option_names.h"	/* which build.sh makes of commands/record.py */

#define SMALLEST_FILE 65536u
#define SMALLEST_RING 65536u
#define LARGEST_RING (1u << 30)
#define FEWEST_FILES 2u		/* the newest one may just have begun */
#define MOST_FILES 65536u
#define MOST_SETS 10000u

/* A word that getopt_long does not take: of a long option that it knows, `optopt` is the letter. */
static void __attribute__((noreturn)) refuse_option(const char *word)
{
	if (optopt && !strncmp(word, "--", 2))
		refuse("%.*s takes no value", (int)strcspn(word, "="), word);
	refuse("there is no option %s; record --help has them", word);
}

static u64 number(const char *name, const char *text, u64 least, u64 most)
{
	char *rest;
	errno = 0;
	u64 value = strtoull(text, &rest, 10);
	if (errno || !*text || *rest || text[0] == '-' || text[0] == '+' || value < least || value > most)
		refuse("%s takes a number from %llu to %llu, not %s", name, (unsigned long long)least,
		       (unsigned long long)most, text);
	return value;
}

static void add_process(struct options *options, const char *text)
{
	if (options->process_count == MOST_NAMED)
		refuse("at most %d processes can be named", MOST_NAMED);
	options->processes[options->process_count++] = (u32)number("--pid", text, 1, 4194304);
}

static void add_called(struct options *options, const char *text)
{
	if (options->called_count == MOST_NAMED)
		refuse("at most %d processes can be named", MOST_NAMED);
	if (!*text || strlen(text) >= CALLED_BYTES)
		refuse("--only takes a name of 1 to %u bytes, or a user id, not %s", CALLED_BYTES - 1, text);
	options->called[options->called_count++] = text;
}

static void add_device(struct options *options, const char *text)
{
	if (options->device_count == MOST_NAMED)
		refuse("at most %d devices can be named", MOST_NAMED);
	options->devices[options->device_count++] = text;
}

/* Takes the option of this letter, to which the word belongs. */
static void take(struct options *options, int letter, const char *word)
{
	switch (letter) {
	case 'o': options->out = optarg; options->has_out = 1; break;
	case OPTION_SIZE: options->size = number("--size", optarg, SMALLEST_FILE, MOST_TOGETHER); break;
	case OPTION_FILES: options->files = (u32)number("--files", optarg, FEWEST_FILES, MOST_FILES); break;
	case OPTION_PID: add_process(options, optarg); break;
	case OPTION_DEVICE: add_device(options, optarg); break;
	case OPTION_ONLY: add_called(options, optarg); break;
	case OPTION_REDACT: options->redact = 1; break;
	case OPTION_NO_ATTACHMENTS: options->no_attachments = 1; break;
	case OPTION_STACKS: options->stacks = 1; break;
	case OPTION_KEEP_ON: triggers_add(optarg); break;
	case OPTION_KEEP_WHEN_FILE: triggers_add_file(optarg); break;
	case OPTION_KEEP_MOST: options->keep_most = (u32)number("--keep-most", optarg, 1, MOST_SETS); break;
	case OPTION_KEEP: options->keep = 1; break;
	case OPTION_LIVE: options->live = 1; break;
	case OPTION_METHODS: refuse("--methods goes with --live or --adb --view, and the script record reads it");
	case OPTION_RING: options->ring = number("--ring", optarg, SMALLEST_RING, LARGEST_RING); break;
	case OPTION_CHECK: options->check = 1; break;
	case OPTION_ADB: case OPTION_DETACH: case OPTION_FETCH: case OPTION_VIEW: case OPTION_NO_NAMES: case OPTION_COLLECT:
		refuse("--adb comes first, and --detach, --fetch, --view, --no-names and --collect after it");
	case 'h': case OPTION_HELP: fputs(option_help, stdout); exit(0);
	case ':': refuse("%s takes a value; record --help says which", word);
	default: refuse_option(word);
	}
}

void options_read(struct options *options, int count, char **words)
{
	*options = (struct options){ .out = "capture", .size = 268435456, .ring = 67108864, .keep_most = 8 };
	opterr = 0;
	int given = 0;
	for (int at = optind, letter; (letter = getopt_long(count, words, "+:o:h", option_names, NULL)) != -1; at = optind, given++)
		take(options, letter, words[at]);
	if (optind < count && strcmp(words[optind - 1], "--"))
		refuse("%s: what is no option comes after --, as the program that is recorded; record --help says more",
		       words[optind]);
	if (optind < count)
		options->program = words + optind;
	if (options->check && options->program)
		refuse("--check takes no PROGRAM: nothing is recorded");
	if (options->ring & (options->ring - 1))
		refuse("--ring takes a power of two, not %llu", (unsigned long long)options->ring);
	if (options->keep && (given > 1 + options->has_out || options->program))
		refuse("--keep takes no other word but -o OUT: it asks a recorder that runs already");
	if (!options->files && triggers_are_asked())
		refuse("--keep-on and --keep-when-file take --files N: what is kept are the newest files");
	if (options->stacks && options->redact)
		refuse("--stacks does not go with --redact: it records paths of files and addresses of code");
	if (!*options->out || strlen(options->out) > 4000)
		refuse("-o takes the start of the files' names");
}
