#include "tracefs.h"
#include <stdio.h>
#include <unistd.h>

const char *tracefs_folder(void)
{
	return access("/sys/kernel/debug/tracing", F_OK) ? "/sys/kernel/tracing" : "/sys/kernel/debug/tracing";
}

void tracefs_path(char *path, const char *name)
{
	snprintf(path, TRACEFS_PATH_BYTES, "%s/%s", tracefs_folder(), name);
}
