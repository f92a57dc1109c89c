#include "holders.h"
#include "kernel.h"
#include "side.h"
#include <stdio.h>

#define MOST_HOLDERS 8u
#define FEWEST_OPENINGS 64u		/* who has fewer takes no room of others */

/* The name of the process, without the end of the line; empty if it is gone. It is no command line, and its reader waits
 * for nobody. */
static void name_of(u32 process, char *name)
{
	char path[64], line[2 * NAME_BYTES] = "";
	snprintf(path, sizeof path, "/proc/%u/comm", process);
	FILE *file = fopen(path, "r");
	size_t bytes = file ? fread(line, 1, sizeof line, file) : 0;
	if (file)
		fclose(file);
	clean_bytes(name, line, bytes ? (u32)bytes - 1 : 0);
}

void holders_tell(void)
{
	struct share holders[MOST_HOLDERS];
	char name[CLEAN_NAME_BYTES];
	u32 count = kernel_holders(holders, MOST_HOLDERS);
	for (u32 i = 0; i < count && holders[i].openings >= FEWEST_OPENINGS; i++) {
		name_of(holders[i].process, name);
		side_line(now(), "holder pid=%u openings=%u name=%s", holders[i].process, holders[i].openings, name);
	}
}
