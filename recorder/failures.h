/* The driver's log of failed transactions, of which each new entry becomes a line of the side list. The driver keeps
 * only the last 32, so the log is read again and again. The driver in Rust has none. */
#ifndef RECORDER_FAILURES_H
#define RECORDER_FAILURES_H

/* Opens the log. What is in it already is not told. */
void failures_begin(void);
/* Tells what is new, if it is time, and something was recorded since the last look. */
void failures_look(void);
/* Tells what is new, and closes the log. */
void failures_end(void);
#endif
