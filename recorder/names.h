/* The numbers of devices, processes and threads in the capture, and their lines in the side list. */
#ifndef RECORDER_NAMES_H
#define RECORDER_NAMES_H
#include "common.h"
#include "messages.h"

/* Whose a frame is, in the numbers of the capture. */
struct who {
	u32 device, process, thread;
};

/* How an opening was met. */
enum met { MET_FROM_START, MET_IN_MID_LIFE };

void names_opening(u32 opening, u64 time, u32 device, u32 process, u64 start, const char *name, enum met met);
/* The namespace of the ids of the opening's process, if it is not the first one, and its id there; otherwise 0. */
void names_space(u32 opening, u32 space, u32 id_there);
/* The command line of the process, and its user. An empty one is read from the process first. */
void names_command(const struct command *command);
/* Tells the command lines that were read since. */
void names_look(void);
/* Waits for those that are still to be read, but not for long, and tells the others as empty. */
void names_end(void);
void names_thread(u32 thread, u32 id, u32 process, u64 start, const char *name);
/* Whether the thread makes calls of 32 or 64 bits. */
void names_bits(u32 thread, u32 bits);
/* The numbers of a thread that calls through an opening. New numbers get their lines in the side list. */
struct who names_of(u32 opening, u32 thread, u64 time);
/* Something ended, or has another name; `after` is the last number before that. */
void names_closed(u32 opening, u64 time, u64 after);
void names_left(u32 opening, u32 thread, u64 time, u64 after);
void names_ended(u32 thread, u32 process, int is_last, u64 time, u64 after);
/* From now on `tell` is called when a process has ended, with the last number before that. */
void names_tell_end(void (*tell)(u32 process, u64 time, u64 after));
/* The process of an opening that has these numbers, and when it began. Returns 0 if there is none any more. */
int names_process(u32 device, u32 number, u32 *process, u64 *start);
/* Whether a process with an opening is called so: by its name, or its program, without folders. */
int names_are_called(u32 process, const char *name);
void names_changed(u32 thread, const char *name, u64 time, u64 after);
/* All frames up to this number are written or lost: forgets what had ended by then. */
void names_settled(u64 number);
/* Begins to write again what the numbers mean that may be in frames from this number on, */
void names_tell_again(u64 number);
/* and writes the next slice of it. Returns 1 if all is written. */
int names_tell_on(void);
/* A line about something that came after a number. It is written as soon as that number is settled. */
void later_line(u64 time, u64 after, const char *format, ...) __attribute__((format(printf, 3, 4)));
#endif
