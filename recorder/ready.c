#include "ready.h"
#include "common.h"
#include "devices.h"
#include "side.h"
#include <stdio.h>
#include <sys/utsname.h>

static enum driver told;	/* of which the devices are told */
static FILE *to;

static void tell_device(u32 device, enum driver driver)
{
	char name[CLEAN_NAME_BYTES];
	if (driver != told)
		return;
	device_name(device, name);
	fprintf(to, " %s", name);
}

void ready_tell(FILE *file)
{
	struct utsname name;
	const char *between = ", ";
	to = file;
	uname(&name);
	fprintf(to, "ready: kernel %s", name.release);
	for (told = 0; told < DRIVERS; told++)
		if (driver_is_recorded(told)) {
			fprintf(to, "%sdriver in %s, devices", between, driver_language(told));
			devices_all(tell_device);
			between = "; ";
		}
	fprintf(to, "\n");
}
