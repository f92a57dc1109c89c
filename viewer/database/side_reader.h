/* The lines of a side list, and the frames in them, as the loader and the printer of lines take them. */
#ifndef SIDE_READER_H
#define SIDE_READER_H

#include <stdbool.h>
#include <stddef.h>
#include <stdint.h>

/* The most bytes of a line; and how many are read at a time: few where a sanitizer looks, so that it sees what is read
 * behind them. */
#ifdef __SANITIZE_ADDRESS__
enum { SIDE_LONGEST = 1 << 22, SIDE_PIECE = 16, SIDE_IS_WATCHED = 1 };
#else
enum { SIDE_LONGEST = 1 << 22, SIDE_PIECE = 1 << 16, SIDE_IS_WATCHED = 0 };
#endif

/* What comes next in a list: a line; the last one, which was cut; nothing; or why it can't be read on. */
enum side_came { SIDE_LINE, SIDE_CUT, SIDE_END, SIDE_TOO_LONG, SIDE_NO_MEMORY, SIDE_UNREADABLE };

/* A list, and the latest line without its end. The line has room for more; after it came zeros of which it is not known
 * yet whether they are a part of it, and bytes of the next lines. */
struct side_reader {
	int list;
	char *line;
	size_t length, room, zeros, next, end;
	char piece[SIDE_PIECE];
};

/* Opens a list. False: errno says why not. */
bool side_open(struct side_reader *reader, const char *path);
void side_close(struct side_reader *reader);

/* Takes the next line in place of the one before. Of SIDE_UNREADABLE errno says why. */
enum side_came side_next_line(struct side_reader *reader);

/* Both return what follows; NULL if something else stands there, or if `at` is NULL. A number has at most 20 digits. */
const char *side_after_word(const char *at, const char *end, const char *word);
const char *side_after_number(const char *at, const char *end, uint64_t *number);

/* A frame of a line, its time, and where the line goes on. */
struct side_frame {
	uint64_t number, time;
	const char *at, *end;
};

/* Whether the line begins as one of a frame, or of frames; takes the first one. */
bool side_first_frame(const struct side_reader *reader, struct side_frame *first);

/* Goes on to the next frame of the line. False, and nothing is changed: there is none, or what follows is wrong. */
bool side_next_frame(struct side_frame *frame);

#endif
