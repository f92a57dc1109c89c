/* What a recording lacks. The first thing that is missing ends the recorder, unless all of them are listed. */
#ifndef RECORDER_LACK_H
#define RECORDER_LACK_H

/* Writes a line that says what is missing, and ends the recorder with status 1; or goes on, if all are listed. */
void lack(const char *format, ...) __attribute__((format(printf, 1, 2)));
/* From now on all that is missing is listed. */
void lack_list(void);
/* How many lines were listed. */
unsigned lack_count(void);
#endif
