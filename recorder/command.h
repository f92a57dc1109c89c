/* What a process is called beyond the 15 bytes of its name, and its user: the lines `command` of the side list. */
#ifndef RECORDER_COMMAND_H
#define RECORDER_COMMAND_H
#include "common.h"
#include "messages.h"

/* From now on, keeps of a command line only what the program is called: the rest may be secret. */
void command_redact(void);
/* Begins to read what the program in the kernel could not read, of the process that began at this time, by a thread of
 * its own: the process may let it wait. Returns 0 if too many wait. */
int command_read(const struct command *command, u32 process, u64 start);
/* Gives one that was read since; it is empty if it could not be read. Returns 0 if there is none, or another one came
 * meanwhile. */
int command_was_read(struct command *command);
/* How many are still to be read. */
u32 command_awaited(void);
/* Whether that of the opening is. */
int command_is_awaited(u32 opening);
/* Gives the one of the opening that is still to be read, as an empty one. Returns 0 if there is none. */
int command_give_up(u32 opening, struct command *command);
/* Keeps the command line of an opening. Returns 1 if it is another one than before. */
int command_keep(const struct command *command);
/* The line of the opening, without its time, in the numbers of the capture; NULL if no command line is known. It is
 * valid until the next call. */
const char *command_line(u32 opening, u32 device, u32 process);
/* Whether its program is called so, without folders, by what is kept of its command line. */
int command_is_called(u32 opening, const char *name);
/* What its program is called, without folders, by the command line that is kept: how many bytes it has, and where they
 * begin. 0 if none is known. */
u32 command_program(u32 opening, const char **begin);
/* The opening is closed, and gets no line any more. */
void command_forget(u32 opening);
#endif
