#include "process.h"
#include <stdio.h>
#include <string.h>
#include <unistd.h>

static u64 read_file(u32 process, const char *name, char *text, u64 room)
{
	char path[64];
	snprintf(path, sizeof path, "/proc/%u/%s", process, name);
	FILE *file = fopen(path, "r");
	if (!file)
		return 0;
	u64 bytes = fread(text, 1, room, file);
	fclose(file);
	return bytes;
}

int process_is(u32 process, u64 start)
{
	static const char fields[] =	/* those after the name, up to the 22nd of all: when it began */
		" %*c %*s %*s %*s %*s %*s %*s %*s %*s %*s %*s %*s %*s %*s %*s %*s %*s %*s %*s %llu";
	char text[1024];
	unsigned long long began;
	text[read_file(process, "stat", text, sizeof text - 1)] = 0;
	const char *rest = strrchr(text, ')');		/* a name may have brackets and spaces */
	if (!rest || sscanf(rest + 1, fields, &began) != 1)
		return 0;
	return began == start / (1000000000u / (u64)sysconf(_SC_CLK_TCK));
}

/* It is asked again after that: what was read may be another process's, which has the id since. */
u64 process_read(u32 process, u64 start, const char *name, char *text, u64 room)
{
	u64 bytes = process_is(process, start) ? read_file(process, name, text, room) : 0;
	return process_is(process, start) ? bytes : 0;
}
