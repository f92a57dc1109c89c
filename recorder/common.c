#include "common.h"
#include <stdio.h>
#include <stdlib.h>
#include <string.h>
#include <time.h>

#define WRONG_WORDS 64			/* the status */

void complain_with(const char *format, va_list arguments)
{
	char line[1024];
	vsnprintf(line, sizeof line, format, arguments);
	fprintf(stderr, "record: %s\n", line);
}

void complain(const char *format, ...)
{
	va_list arguments;
	va_start(arguments, format);
	complain_with(format, arguments);
	va_end(arguments);
}

void fail(const char *format, ...)
{
	va_list arguments;
	va_start(arguments, format);
	complain_with(format, arguments);
	va_end(arguments);
	exit(1);
}

void refuse(const char *format, ...)
{
	va_list arguments;
	va_start(arguments, format);
	complain_with(format, arguments);
	va_end(arguments);
	exit(WRONG_WORDS);
}

void *allocate(size_t bytes)
{
	void *memory = calloc(1, bytes ? bytes : 1);
	if (!memory)
		fail("no memory");
	return memory;
}

void *resize(void *memory, size_t bytes)
{
	memory = realloc(memory, bytes ? bytes : 1);
	if (!memory)
		fail("no memory");
	return memory;
}

u64 now(void)
{
	struct timespec time;
	clock_gettime(CLOCK_MONOTONIC, &time);
	return (u64)time.tv_sec * 1000000000u + (u64)time.tv_nsec;
}

u32 load_u32(const u8 *from)
{
	u32 value;
	memcpy(&value, from, sizeof value);
	return value;
}
