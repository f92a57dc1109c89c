/* Where a binderfs is mounted. */
#ifndef RECORDER_BINDERFS_H
#define RECORDER_BINDERFS_H
#include "drivers.h"

#define BINDERFS_FOLDER_BYTES 4096

/* Whether the path is in a binderfs; then whose it is, in `driver`. */
int binderfs_has(const char *path, enum driver *driver);
/* Writes the folder of a binderfs, counted from 0, which has BINDERFS_FOLDER_BYTES. Returns 0 if there is none. */
int binderfs_folder(u32 number, char *folder);
#endif
