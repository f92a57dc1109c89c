/* What the records of the frames written so far have named: the open calls of threads, and the handles of processes.
 * With --files a side list begins with it, since the records themselves may be gone. */
#ifndef RECORDER_MET_H
#define RECORDER_MET_H
#include "common.h"
#include "frame.h"

/* From now on, remembers what is met, for files of at most so many bytes. Without this the other functions do
 * nothing. */
void met_keep(u64 most_bytes);
/* Takes the records of a frame that is written. */
void met_frame(const struct frame *frame);
/* What ended has nothing open and holds nothing any more. */
void met_thread_ended(struct who who);
void met_process_ended(u32 device, u32 process);
/* Whether all handles that the process has named are remembered. */
int met_knows_handles(u32 device, u32 process);
/* Writes a line for a thread if it has open calls. */
void met_tell_calls(struct who who);
/* Begins to write a line for each handle, */
void met_tell_again(void);
/* and writes the next slice of it. Returns 1 if all is written. */
int met_tell_on(void);
#endif
