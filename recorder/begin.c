#include "begin.h"
#include "clocks.h"
#include "descriptors.h"
#include "devices.h"
#include "met.h"
#include "names.h"
#include "narrowed.h"
#include "side.h"
#include "slice.h"
#include "stacks.h"
#include <stdio.h>
#include <string.h>
#include <sys/utsname.h>

static char line[LONGEST_LINE + NARROWED_BYTES];	/* empty before the recording has begun */
static void (*tell_also)(u64 number);

/* The devices, with their drivers, as many as have room in a line. */
static char devices[LONGEST_LINE / 2];

static void add_device(u32 device, enum driver driver)
{
	size_t used = strlen(devices);
	if (used + 40 < sizeof devices)
		snprintf(devices + used, sizeof devices - used, "%s%u:%u:%s", used ? "," : "", device_major(device),
			 device_minor(device), driver_language(driver));
}

void begin_tell(const char *payloads, const char *narrowed)
{
	struct utsname name;
	struct moment moment = clocks_read();
	uname(&name);
	devices_all(add_device);
	snprintf(line, sizeof line,
		 "%llu begin realtime=%lld%09ld boottime=%lld%09ld kernel=%s machine=%s payloads=%s%s drivers=%s\n",
		 (unsigned long long)moment.time, (long long)moment.wall.tv_sec, moment.wall.tv_nsec,
		 (long long)moment.boot.tv_sec, moment.boot.tv_nsec, name.release, name.machine, payloads, narrowed,
		 devices);
	side_text(line);
}

void begin_tell_also(void (*tell)(u64 number))
{
	tell_also = tell;
}

void begin_tell_again(u64 number)
{
	side_text(line);
	clocks_tell_again();
	names_tell_again(number);
	met_tell_again();
	stacks_tell_again();
	descriptors_tell_again();
	side_wait();
	if (tell_also)
		tell_also(number);
}

int begin_tell_on(void)
{
	slice_begin();
	side_go_on();
	int is_told = names_tell_on() && met_tell_on();
	side_wait();
	return is_told;
}
