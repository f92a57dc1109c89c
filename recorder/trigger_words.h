/* The words of --keep-on and --keep-when-file. */
#ifndef RECORDER_TRIGGER_WORDS_H
#define RECORDER_TRIGGER_WORDS_H
#include "common.h"

/* What is looked for; 0 or NULL: it is not. Times are nanoseconds, refused is how many sends a second. */
struct asked_triggers {
	u64 hang, pool, refused;
	const char *death, *log, *file;
};

extern struct asked_triggers asked_triggers;

/* Adds one, as --keep-on takes it, or ends with a line that says what is wrong with it. */
void triggers_add(const char *word);
void triggers_add_file(const char *path);
int triggers_are_asked(void);
#endif
