/* The numbers that are not settled yet. A frame is written as soon as every lower number is written or lost. */
#ifndef RECORDER_WINDOW_H
#define RECORDER_WINDOW_H
#include "common.h"
#include "messages.h"
#include "ring.h"

/* From now on the data of a send that the driver refused is left out if it is much. */
void window_bound_refused(void);
/* Takes a message of the ring. */
void window_hear(const void *message, u64 bytes);
/* Takes the messages that are in the ring, as ring_drain(). If they have few bytes for its size, large attachments stay
 * there, to be written without a copy. window_give_back() is due before the ring is looked at again. */
long window_take(struct ring *ring);
/* Writes what was settled, copies what still waits, and gives the ring its room back. */
void window_give_back(struct ring *ring);
/* All numbers up to `bound` have their messages. If one is silent, the ring had no room for its message. */
void window_silent_until(u64 bound);
/* Writes frames that can be written, for a moment: the ring must not get full meanwhile. Returns 1 if there are
 * more. */
int window_settle(void);
/* The recording ends with this number, at this time: from now on messages of what came after that are left out. */
void window_stop(u64 number, u64 time);
/* No message comes any more: writes what is left up to that number. */
void window_end(void);
/* When all numbers up to this one are settled, calls `then` before anything of a later one is written: again and again,
 * until it returns 1. */
void window_mark(u64 number, int (*then)(void));
/* How many writes wait for the driver to say what it consumed. */
u64 window_waiting(void);
u64 window_frames(void);
u64 window_lost(void);
u64 window_lost_because(enum reason reason);
/* The last number that is settled. */
u64 window_last(void);
/* The latest time of a frame that was written. */
u64 window_latest(void);
/* The latest time of what ended or changed, of what was written. */
u64 window_latest_line(void);
#endif
