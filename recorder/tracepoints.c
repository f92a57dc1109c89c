#include "tracepoints.h"
#include "tracefs.h"
#include <errno.h>
#include <stdio.h>
#include <string.h>
#include <unistd.h>

#define FIELD(name, fields, member) { { name }, offsetof(struct fields, member), sizeof ((struct fields *)0)->member }

/* They are attached in this order: of a call whose entry is seen, all is seen. */
const struct tracepoint tracepoints_of_driver[] = {
	{ "at_command", { "binder_command" }, { FIELD("cmd", number_fields, number) } },
	{ "at_write_done", { "binder_write_done" }, { FIELD("ret", number_fields, number) } },
	{ "at_return", { "binder_ioctl_done" }, { FIELD("ret", number_fields, number) } },
	{ "at_entry", { "binder_ioctl" },
	  { FIELD("cmd", ioctl_fields, command), FIELD("arg", ioctl_fields, argument) } },
	{ 0 },
};

const struct tracepoint tracepoints_of_scheduler[] = {
	{ "at_exec", { "sched_process_exec" }, { FIELD("old_pid", exec_fields, old_id) } },
	{ "at_exit", { "sched_process_exit" }, { { { 0 }, 0, 0 } } },
	{ 0 },
};

static void path_of_format(char *path, const char *system, const char *name)
{
	char file[TRACEFS_PATH_BYTES / 2];
	snprintf(file, sizeof file, "events/%s/%s/format", system, name);
	tracefs_path(path, file);
}

const char *tracepoint_name(const struct tracepoint *tracepoint, const char *system)
{
	char path[TRACEFS_PATH_BYTES];
	for (u32 i = 0; i < NAMES && tracepoint->names[i]; i++) {
		path_of_format(path, system, tracepoint->names[i]);
		if (!access(path, F_OK))
			return tracepoint->names[i];
	}
	return NULL;
}

/* Whether a `format` file has the field, by one of its names. A line of it is, for example:
 *	field:unsigned int cmd;	offset:8;	size:4;	signed:0; */
static int has_field(const char *format, const struct field *field)
{
	char text[128];
	for (u32 i = 0; i < NAMES && field->names[i]; i++) {
		snprintf(text, sizeof text, " %s;\toffset:%u;\tsize:%u;", field->names[i], field->offset, field->size);
		if (strstr(format, text))
			return 1;
	}
	return !field->names[0];
}

static int has_fields(const struct tracepoint *tracepoint, FILE *file)
{
	char format[4096];
	format[fread(format, 1, sizeof format - 1, file)] = 0;
	return has_field(format, &tracepoint->fields[0]) && has_field(format, &tracepoint->fields[1]);
}

static int is_there(const char *system, const struct tracepoint *tracepoint, char *why, size_t room)
{
	char path[TRACEFS_PATH_BYTES];
	const char *name = tracepoint_name(tracepoint, system);
	path_of_format(path, system, name ? name : tracepoint->names[0]);
	FILE *file = fopen(path, "r");
	int is_good = file && has_fields(tracepoint, file);
	if (!file)
		snprintf(why, room, "%s: %s", path, strerror(errno));
	else if (!is_good)
		snprintf(why, room, "%s has other fields than the recorder knows", path);
	if (file)
		fclose(file);
	return is_good;
}

int tracepoints_are_there(const char *system, const struct tracepoint *tracepoints, char *why, size_t room)
{
	for (; tracepoints->program; tracepoints++)
		if (!is_there(system, tracepoints, why, room))
			return 0;
	return 1;
}
