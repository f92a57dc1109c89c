/*
 * Reads a side list, whose form is in docs/SIDE-LIST.md, line by line. It is read and not mapped, since it may not be
 * ours: where a mapped file was cut, a read of it would end the program. No line is longer than SIDE_LONGEST, so that a
 * reader may keep whole lines.
 */
#include <errno.h>
#include <fcntl.h>
#include <stdlib.h>
#include <string.h>
#include <unistd.h>

#include "side_reader.h"

enum { MOST_DIGITS = 20, LEAST_ROOM = 4096 };

/* ---- lines */

bool side_open(struct side_reader *reader, const char *path)
{
	*reader = (struct side_reader){ .list = open(path, O_RDONLY | O_CLOEXEC) };
	return reader->list >= 0;
}

void side_close(struct side_reader *reader)
{
	close(reader->list);
	free(reader->line);
}

/* Sees to it that there is a next byte. Returns SIDE_LINE if there is. */
static enum side_came read_on(struct side_reader *reader)
{
	if (reader->next < reader->end)
		return SIDE_LINE;
	ssize_t count;
	do
		count = read(reader->list, reader->piece, sizeof reader->piece);
	while (count < 0 && errno == EINTR);
	reader->next = 0;
	reader->end = count < 0 ? 0 : (size_t)count;
	return count < 0 ? SIDE_UNREADABLE : count ? SIDE_LINE : SIDE_END;
}

/* Makes room for so many bytes more of the line. */
static enum side_came make_room(struct side_reader *reader, size_t more)
{
	if (more > SIDE_LONGEST - reader->length)
		return SIDE_TOO_LONG;
	size_t due = reader->length + more, room = reader->room ? reader->room : LEAST_ROOM;
	while (room < due)
		room *= 2;
	char *line = room == reader->room ? reader->line : realloc(reader->line, room);
	if (!line)
		return SIDE_NO_MEMORY;
	reader->line = line;
	reader->room = room;
	return SIDE_LINE;
}

/* Adds the zeros that came before, and then these bytes. */
static enum side_came add(struct side_reader *reader, const char *bytes, size_t count)
{
	enum side_came made = make_room(reader, reader->zeros + count);
	if (made != SIDE_LINE)
		return made;
	memset(reader->line + reader->length, 0, reader->zeros);
	memcpy(reader->line + reader->length + reader->zeros, bytes, count);
	reader->length += reader->zeros + count;
	reader->zeros = 0;
	return SIDE_LINE;
}

/* How many bytes there are without the zeros at their end: after a loss of power a list may end in very many. */
static size_t without_zeros(const char *bytes, size_t count)
{
	while (count && !bytes[count - 1])
		count--;
	return count;
}

/* Takes what was read, up to the end of the line. Returns SIDE_LINE if it could. */
static enum side_came take_piece(struct side_reader *reader, bool *is_whole)
{
	const char *begin = reader->piece + reader->next, *end = memchr(begin, '\n', reader->end - reader->next);
	size_t count = end ? (size_t)(end - begin) : reader->end - reader->next;
	size_t known = end ? count : without_zeros(begin, count);
	enum side_came made = end || known ? add(reader, begin, known) : SIDE_LINE;
	reader->zeros += count - known;
	reader->next += count + (end != NULL);
	*is_whole = end != NULL;
	return made;
}

/* Takes away the room behind the line, so that a sanitizer sees what is read there. */
static void fit(struct side_reader *reader)
{
	reader->room = reader->length + !reader->length;
	reader->line = realloc(reader->line, reader->room);
}

enum side_came side_next_line(struct side_reader *reader)
{
	enum side_came came = SIDE_LINE;
	reader->length = reader->zeros = 0;
	for (bool is_whole = false; !is_whole && came == SIDE_LINE;) {
		came = read_on(reader);
		if (came == SIDE_LINE)
			came = take_piece(reader, &is_whole);
	}
	if (SIDE_IS_WATCHED)
		fit(reader);
	return came == SIDE_END && reader->length ? SIDE_CUT : came;
}

/* ---- words and numbers */

const char *side_after_word(const char *at, const char *end, const char *word)
{
	size_t length = strlen(word);
	return at && (size_t)(end - at) >= length && !memcmp(at, word, length) ? at + length : NULL;
}

const char *side_after_number(const char *at, const char *end, uint64_t *number)
{
	const char *begin = at;
	*number = 0;
	for (; at && at < end && *at >= '0' && *at <= '9'; at++)
		if (at - begin == MOST_DIGITS || __builtin_mul_overflow(*number, 10, number)
		    || __builtin_add_overflow(*number, (uint64_t)(*at - '0'), number))
			return NULL;
	return at > begin ? at : NULL;
}

/* ---- frames */

static bool is_end_of_word(const char *at, const char *end)
{
	return at && (at == end || *at == ' ');
}

bool side_first_frame(const struct side_reader *reader, struct side_frame *first)
{
	const char *end = reader->line + reader->length;
	const char *at = side_after_number(reader->line, end, &first->time);
	const char *alone = side_after_word(at, end, " frame "), *several = side_after_word(at, end, " frames ");
	first->end = end;
	first->at = side_after_number(alone ? alone : several, end, &first->number);
	return alone ? first->at == end : is_end_of_word(first->at, end);
}

bool side_next_frame(struct side_frame *frame)
{
	uint64_t by, time;
	const char *at = side_after_word(frame->at, frame->end, " "), *earlier = side_after_word(at, frame->end, "-");
	at = side_after_number(earlier ? earlier : at, frame->end, &by);
	if (!is_end_of_word(at, frame->end) || frame->number == UINT64_MAX
	    || (earlier ? __builtin_sub_overflow(frame->time, by, &time) : __builtin_add_overflow(frame->time, by, &time)))
		return false;
	*frame = (struct side_frame){ frame->number + 1, time, at, frame->end };
	return true;
}
