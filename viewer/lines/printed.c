/* What goes to standard output: numbers and words, many of them at a time. */
#include <errno.h>
#include <stdlib.h>
#include <string.h>
#include <unistd.h>

#include "lines.h"

/* So many bytes are collected. A number has at most so many digits: that of a place may have one more. */
enum { PIECE = 1 << 16, MOST_DIGITS = 21, PLACE_WIDTH = 10 };

static char collected[PIECE];
static size_t length;

static void write_all(const char *bytes, size_t left)
{
	while (left) {
		ssize_t written = write(STDOUT_FILENO, bytes, left);
		if (written < 0 && errno == EINTR)
			continue;
		if (written < 0 && errno == EPIPE)
			_exit(LISTED);
		length = 0;
		if (written < 0)
			stop(FAILED, "fault Write");
		bytes += written;
		left -= (size_t)written;
	}
}

void print_out(void)
{
	size_t due = length;
	length = 0;
	write_all(collected, due);
}

static inline char *room_for(size_t more)
{
	if (PIECE - length < more)
		print_out();
	return collected + length;
}

void print_bytes(const char *bytes, size_t count)
{
	if (count > PIECE) {
		print_out();
		write_all(bytes, count);
		return;
	}
	memcpy(room_for(count), bytes, count);
	length += count;
}

void print_word(const char *word)
{
	print_bytes(word, strlen(word));
}

/* ---- numbers */

/* Writes the digits before `end`. Returns where they begin. */
static inline char *digits_before(char *end, unsigned __int128 number)
{
	uint64_t rest = (uint64_t)number;
	for (; number >> 64; number /= 10, rest = (uint64_t)number)
		*--end = (char)('0' + (int)(number % 10));
	for (; rest >= 10; rest /= 10)
		*--end = (char)('0' + (int)(rest % 10));
	*--end = (char)('0' + (int)rest);
	return end;
}

void print_decimal(uint64_t number)
{
	char *to = room_for(MOST_DIGITS), digits[MOST_DIGITS], *end = digits + sizeof digits;
	if (number < 10) {
		*to = (char)('0' + (int)number);
		length++;
		return;
	}
	char *begin = digits_before(end, number);
	memcpy(to, begin, (size_t)(end - begin));
	length += (size_t)(end - begin);
}

void print_signed(int64_t number)
{
	if (number < 0)
		print_bytes("-", 1);
	print_decimal(number < 0 ? -(uint64_t)number : (uint64_t)number);
}

void print_digits(uint64_t number, int count)
{
	char *to = room_for(MOST_DIGITS);
	for (int at = count - 1; at >= 0; at--)
		*to++ = "0123456789abcdef"[number >> 4 * at & 15];
	length += (size_t)count;
}

void print_hexadecimal(uint64_t number)
{
	print_bytes("0x", 2);
	print_digits(number, 16 - __builtin_clzll(number | 1) / 4);
}

void print_place(uint64_t place, uint64_t distance)
{
	char digits[MOST_DIGITS], *end = digits + sizeof digits;
	char *begin = digits_before(end, (unsigned __int128)place + distance);
	while (end - begin < PLACE_WIDTH)
		*--begin = ' ';
	print_bytes(begin, (size_t)(end - begin));
}
