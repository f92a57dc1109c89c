/* Where the tracefs is whose events the recorder attaches to. */
#ifndef RECORDER_TRACEFS_H
#define RECORDER_TRACEFS_H
#include "common.h"

#define TRACEFS_PATH_BYTES 160

/* The folder. libbpf attaches through the same of the two that there may be. */
const char *tracefs_folder(void);
/* Writes the path of a file in it into `path`, which has TRACEFS_PATH_BYTES. */
void tracefs_path(char *path, const char *name);
#endif
