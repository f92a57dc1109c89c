/* What a flight recorder looks for, to keep its files when it comes: --keep-on and --keep-when-file. */
#ifndef RECORDER_TRIGGERS_H
#define RECORDER_TRIGGERS_H
#include "common.h"
#include "options.h"

/* Looks what the system lacks for them. */
void triggers_need(void);
void triggers_begin(const struct options *options);
/* Looks for them, and asks for a set if one is there. It is called each time that the ring was looked at. */
void triggers_look(void);
void triggers_end(void);
#endif
