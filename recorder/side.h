/* The side list. Its form is in docs/SIDE-LIST.md. */
#ifndef RECORDER_SIDE_H
#define RECORDER_SIDE_H
#include "common.h"
#include "messages.h"

/* Creates the file OUT.side, or OUT-NUMBER.side if the number is not 0, with its first line. Returns 0, or an errno. */
int side_create(const char *out, u32 number);
int side_close(void);
const char *side_path(void);
u64 side_bytes(void);
void side_remove(void);
#define LONGEST_LINE 2048
/* Adds a line of less than LONGEST_LINE bytes: the time, a space, and the rest. */
void side_line(u64 time, const char *format, ...) __attribute__((format(printf, 2, 3)));
/* Adds a frame: the next one to the line of the frame before it, if nothing came between. */
void side_frame(u64 time, u64 number);
/* Adds text: whole lines, as they are. */
void side_text(const char *text);
/* From now on what is added waits, until it is let go: other lines come before it. */
void side_wait(void);
/* From now on what is added does not wait. What waits already, still does. */
void side_go_on(void);
void side_let_go(void);
/* Hands to the system what was added. Returns 0, or an errno; after that nothing more is written. */
int side_flush(void);
/* The word for a reason. */
const char *reason_word(u32 reason);
/* Copies a name from the kernel, up to a NUL; what would break a line becomes \xHH. `to` needs 4 * length + 1 bytes. */
void clean_name(char *to, const char *from, u32 length);
/* Does the same with all bytes, NULs too. */
void clean_bytes(char *to, const char *from, u32 count);
#define CLEAN_NAME_BYTES (4 * 128 + 1)
#endif
