/* `record --keep` asks a running recorder to keep its files: through a socket whose name has the recorder's process id, of
 * which the file system knows nothing, so that a killed recorder leaves none. A signal, SIGUSR1, asks too. */
#ifndef RECORDER_KEEP_ASKED_H
#define RECORDER_KEEP_ASKED_H
#include "common.h"

/* From now on this recorder, whose files begin with `out`, can be asked. */
void keep_asked_begin(const char *out);
/* A signal handler that asks. */
void keep_asked_by_signal(int number);
/* Takes what was asked for, and answers when it is done. It is called each time that the ring was looked at. */
void keep_asked_look(void);
/* The recorder ends: answers all that wait. */
void keep_asked_end(void);
/* Asks the recorder whose files begin with `out`, or the only one if that is NULL, and writes its answer. Returns the
 * status. */
int keep_request(const char *out);
#endif
