#include "side.h"
#include "file.h"
#include <stdarg.h>
#include <stdio.h>
#include <stdlib.h>
#include <string.h>

#define MOST_OF_FRAMES 4096u		/* the bytes of a line of frames are fewer */
#define LONGEST_DELTA 21u		/* a space, perhaps a sign, and a number below 2^63 */

static struct file side;
static int waits;
static char *waiting;			/* what waits, without a NUL at its end */
static u64 waiting_bytes, waiting_room;
static struct {				/* the line of frames that is being written */
	int is_open;			/* it has no end yet */
	u64 number, time, bytes;	/* of its last frame; and how long it is */
} frames;

static const char *const reasons[REASON_END] = {
	[REASON_NONE] = "none",
	[REASON_CALL_UNREADABLE] = "call-unreadable",
	[REASON_TOO_LARGE] = "too-large",
	[REASON_TOO_MANY] = "too-many",
	[REASON_UNREADABLE] = "unreadable",
	[REASON_RING_FULL] = "ring-full",
	[REASON_EFAULT] = "efault",
	[REASON_OTHER_MEMORY] = "other-memory",
	[REASON_BROKEN] = "broken",
	[REASON_IN_FLIGHT] = "in-flight",
	[REASON_HELD_TOO_LONG] = "held-too-long",
	[REASON_FILE_TOO_SMALL] = "file-too-small",
	[REASON_NOT_WRITTEN] = "not-written",
	[REASON_REFUSED] = "refused",
};

const char *reason_word(u32 reason)
{
	return reason < REASON_END ? reasons[reason] : "unknown";
}

static void add_waiting(const char *text, u64 bytes)
{
	if (waiting_bytes + bytes > waiting_room) {
		waiting_room = (waiting_bytes + bytes) * 2;
		waiting = resize(waiting, waiting_room);
	}
	memcpy(waiting + waiting_bytes, text, bytes);
	waiting_bytes += bytes;
}

static void add(const char *text, u64 bytes)
{
	if (waits)
		add_waiting(text, bytes);
	else
		file_add(&side, text, bytes);
}

/* Ends the line of frames that is being written, if there is one: after it comes another line, or nothing for a while. */
static void end_frames(void)
{
	if (frames.is_open)
		add("\n", 1);
	frames.is_open = 0;
}

int side_create(const char *out, u32 number)
{
	char path[4096];
	if (number)
		snprintf(path, sizeof path, "%s-%u.side", out, number);
	else
		snprintf(path, sizeof path, "%s.side", out);
	int error = file_create(&side, path);
	side_text("binder side list 3\n");
	return error;
}

int side_close(void)
{
	end_frames();
	return file_close(&side);
}

u64 side_bytes(void)
{
	return side.bytes;
}

const char *side_path(void)
{
	return side.path;
}

void side_remove(void)
{
	file_remove(&side);
}

void side_text(const char *text)
{
	end_frames();
	add(text, strlen(text));
}

void side_wait(void)
{
	end_frames();
	waits = 1;
}

void side_go_on(void)
{
	end_frames();
	waits = 0;
}

void side_let_go(void)
{
	side_go_on();
	if (waiting_bytes)
		file_add(&side, waiting, waiting_bytes);
	free(waiting);
	waiting = NULL;
	waiting_bytes = waiting_room = 0;
}

void side_line(u64 time, const char *format, ...)
{
	char line[LONGEST_LINE];
	int head = snprintf(line, sizeof line, "%llu ", (unsigned long long)time);
	va_list arguments;
	va_start(arguments, format);
	vsnprintf(line + head, sizeof line - (size_t)head - 1, format, arguments);
	va_end(arguments);
	strcat(line, "\n");
	side_text(line);
}

/* Puts the digits of a number before `end`, two at a time. Returns where they begin. */
static char *digits_before(char *end, u64 number)
{
	static const char pairs[] = "00010203040506070809101112131415161718192021222324252627282930313233343536373839"
				    "40414243444546474849505152535455565758596061626364656667686970717273747576777879"
				    "8081828384858687888990919293949596979899";
	for (; number >= 100; number /= 100)
		memcpy(end -= 2, pairs + 2 * (number % 100), 2);
	if (number >= 10)
		return memcpy(end - 2, pairs + 2 * number, 2);
	*--end = (char)('0' + number);
	return end;
}

/* Puts the beginning of a line of frames before `end`. Returns where it begins. */
static char *first_before(char *end, u64 time, u64 number)
{
	static const char word[] = " frames ";
	char *begin = digits_before(end, number) - (sizeof word - 1);
	memcpy(begin, word, sizeof word - 1);
	return digits_before(begin, time);
}

/* Puts how much later than the last frame this one came before `end`. A frame may have an earlier time than the last
 * one, whose number another processor took. */
static char *delta_before(char *end, u64 time)
{
	int is_earlier = time < frames.time;
	char *begin = digits_before(end, is_earlier ? frames.time - time : time - frames.time);
	if (is_earlier)
		*--begin = '-';
	*--begin = ' ';
	return begin;
}

static int is_next_in_line(u64 number)
{
	return frames.is_open && number == frames.number + 1 && frames.bytes + LONGEST_DELTA < MOST_OF_FRAMES;
}

/* It is called for each frame, so what it adds is made without vsnprintf. */
void side_frame(u64 time, u64 number)
{
	char text[64], *end = text + sizeof text, *begin;
	if (is_next_in_line(number)) {
		begin = delta_before(end, time);
	} else {
		end_frames();
		frames.bytes = 0;
		begin = first_before(end, time, number);
	}
	add(begin, (u64)(end - begin));
	frames.is_open = 1;
	frames.number = number;
	frames.time = time;
	frames.bytes += (u64)(end - begin);
}

int side_flush(void)
{
	end_frames();
	return file_flush(&side);
}

void clean_name(char *to, const char *from, u32 length)
{
	clean_bytes(to, from, (u32)strnlen(from, length));
}

/* Whether UTF-8 has U+0080 to U+009F there: a terminal takes them for control characters too. */
static int is_high_control(const char *from, u32 count)
{
	return count > 1 && (unsigned char)from[0] == 0xc2 && (unsigned char)from[1] >= 0x80 && (unsigned char)from[1] < 0xa0;
}

void clean_bytes(char *to, const char *from, u32 count)
{
	for (u32 i = 0; i < count; i++) {
		int is_high = is_high_control(from + i, count - i);
		unsigned char byte = (unsigned char)from[i += (u32)is_high];
		if (is_high || byte < 0x20 || byte == 0x7f || byte == '\\')
			to += sprintf(to, "\\x%02x", byte);
		else
			*to++ = (char)byte;
	}
	*to = 0;
}
