#include "lack.h"
#include "common.h"
#include <stdarg.h>
#include <stdlib.h>

static int is_listed;
static unsigned count;

void lack(const char *format, ...)
{
	va_list arguments;
	va_start(arguments, format);
	complain_with(format, arguments);
	va_end(arguments);
	if (!is_listed)
		exit(1);
	count++;
}

void lack_list(void)
{
	is_listed = 1;
}

unsigned lack_count(void)
{
	return count;
}
