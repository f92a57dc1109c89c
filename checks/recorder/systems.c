/* systems FOLDER: says in a line each what a recording lacks on a system of which only some files are there, those
 * below the FOLDER: tracefs, kallsyms, folders of modules, and in `release` the version of the kernel. The status is 1
 * if it lacks something. See systems.py. */
#include "drivers.h"
#include "lack.h"
#include "needs.h"
#include <stdio.h>
#include <stdlib.h>
#include <string.h>
#include <sys/utsname.h>

int __real_access(const char *path, int mode);
FILE *__real_fopen(const char *path, const char *mode);

static const char *folder;

static const char *below(const char *name)
{
	static char path[4096];
	if ((size_t)snprintf(path, sizeof path, "%s%s", folder, name) >= sizeof path)
		exit(2);
	return path;
}

int __wrap_access(const char *name, int mode) { return __real_access(below(name), mode); }

FILE *__wrap_fopen(const char *name, const char *mode) { return __real_fopen(below(name), mode); }

int uname(struct utsname *name)
{
	FILE *file = fopen("/release", "r");
	memset(name, 0, sizeof *name);
	int is_read = file && fgets(name->release, sizeof name->release, file);
	if (file)
		fclose(file);
	name->release[strcspn(name->release, "\n")] = 0;
	return is_read ? 0 : -1;
}

int main(int count, char **words)
{
	if (count != 2)
		return 2;
	folder = words[1];
	lack_list();
	need_kernel();
	need_no_lockdown();
	int has_driver = need_driver();
	if (need_tracefs() && has_driver)
		need_tracepoints();
	need_no_preemption(PREEMPTION_UNKNOWN);
	for (enum driver driver = 0; driver < DRIVERS; driver++) {
		char opens[FUNCTION_BYTES], releases[FUNCTION_BYTES];
		if (!driver_is_recorded(driver))
			continue;
		if (driver_function(driver, "open", opens) && driver_function(driver, "release", releases))
			printf("driver in %s: %s and %s are probed\n", driver_language(driver), opens, releases);
		else
			printf("driver in %s: functions of the kernel are probed\n", driver_language(driver));
	}
	return lack_count() != 0;
}
