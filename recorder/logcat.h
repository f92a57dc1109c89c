/* The log of Android, of which a line may tell of a fault: it is read by logcat, a child of the recorder. */
#ifndef RECORDER_LOGCAT_H
#define RECORDER_LOGCAT_H
#include "common.h"

#define LOGCAT_LINE 256u		/* so many bytes of a line are kept, with a NUL */

/* Takes the expression, in the extended form of POSIX. Returns NULL, or what is wrong with it. */
const char *logcat_expect(const char *expression);
int logcat_is_there(void);
/* Begins to read what is logged from now on. */
void logcat_begin(void);
/* Gives the first line that fits and was not given, and its time. Returns 0 if there is none. */
int logcat_found(u64 *time, char *line);
void logcat_end(void);
#endif
