#include "binderfs.h"
#include <stdio.h>
#include <string.h>
#include <linux/magic.h>
#include <sys/vfs.h>

#define RUST_BINDERFS_SUPER_MAGIC 0x6c6f6f71	/* of the driver in Rust; in no header of user space yet */

int binderfs_has(const char *path, enum driver *driver)
{
	struct statfs status;
	if (statfs(path, &status) ||
	    (status.f_type != BINDERFS_SUPER_MAGIC && status.f_type != RUST_BINDERFS_SUPER_MAGIC))
		return 0;
	*driver = status.f_type == BINDERFS_SUPER_MAGIC ? DRIVER_IN_C : DRIVER_IN_RUST;
	return 1;
}

int binderfs_folder(u32 number, char *folder)
{
	char line[8192], sort[64];
	int is_found = 0;
	FILE *mounts = fopen("/proc/self/mounts", "r");
	while (mounts && !is_found && fgets(line, sizeof line, mounts)) {
		if (sscanf(line, "%*s %4095s %63s", folder, sort) != 2)
			continue;
		if (strcmp(sort, "binder") || strchr(folder, '\\'))
			continue;
		is_found = !number--;
	}
	if (mounts)
		fclose(mounts);
	return is_found;
}
