/* What alone is recorded, as the side list says it. */
#ifndef RECORDER_NARROWED_H
#define RECORDER_NARROWED_H
#include "options.h"

/* The most bytes of it, with the NUL behind it. */
#define NARROWED_BYTES 8192u
/* ` narrowed=pid:412,only:my\x20app,device:binder`; empty if all of the system is recorded. What has no room is counted:
 * `,more:3`. The text stays until the next call. */
const char *narrowed_field(const struct options *options);
#endif
