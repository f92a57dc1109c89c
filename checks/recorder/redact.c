/*
 * Writes a capture again with the frames of the recorder, as `./record --redact` would have written it.
 *
 *     redact all|flagged CAPTURE OUT    writes OUT-1.cap and OUT.side; all: as with --redact, flagged: as without it
 *
 * If KEY is in the environment, its bytes are the key, over and over again, in place of random ones.
 */
#include "frame.h"
#include "kit.h"
#include "parts.h"
#include "redact.h"
#include <stdio.h>
#include <stdlib.h>
#include <string.h>
#include <sys/random.h>

#define FRAME_HEAD 32u

static void add_entries(struct frame *frame, const u8 *bytes, u64 count)
{
	u32 head[3];
	for (u64 at = 0; at < count;) {
		memcpy(head, bytes + at, sizeof head);
		u64 size = (u64)head[1] + head[2];
		struct piece *piece = allocate(sizeof *piece + size);
		*piece = (struct piece){ .record = head[0], .data = head[1], .offsets = head[2], .bytes = (u32)size };
		memcpy(piece + 1, bytes + at + sizeof head, size);
		frame_add_piece(frame, piece, 0);
		free(piece);
		at += sizeof head + size;
	}
}

/* One frame, as the program in the kernel hands it over: a chunk with its commands, and a piece for each entry. */
static void write_again(const u8 *bytes, u64 number, u32 commands, u32 entries)
{
	struct chunk *chunk = allocate(sizeof *chunk + commands);
	struct frame *frame = frame_make(number);
	*chunk = (struct chunk){ .head = { .time = 1 }, .commands = commands };
	memcpy(chunk + 1, bytes + FRAME_HEAD, commands);
	frame->who = (struct who){ load_u32(bytes + 28), load_u32(bytes + 8), load_u32(bytes + 12) };
	frame->direction = bytes[16];
	frame_add_chunk(frame, chunk);
	add_entries(frame, bytes + FRAME_HEAD + commands, entries);
	if (frame_write(frame, commands))
		fail("frame %llu is not written", (unsigned long long)number);
	frame_free(frame);
	free(chunk);
}

static void again(const char *path, const char *out)
{
	u64 count, number;
	u8 *bytes = whole_file(path, &count);
	if (parts_begin(out, MOST_TOGETHER, 0))
		fail("%s can't be written", out);
	for (u64 at = FILE_HEAD; at < count;) {
		u32 commands = load_u32(bytes + at + 20), entries = load_u32(bytes + at + 24);
		memcpy(&number, bytes + at, sizeof number);
		write_again(bytes + at, number, commands, entries);
		at += FRAME_HEAD + (u64)commands + entries;
	}
	free(bytes);
	if (parts_end())
		fail("%s can't be written", out);
}

/* In place of the one of the C library. */
ssize_t getrandom(void *to, size_t bytes, unsigned flags)
{
	const char *key = getenv("KEY");
	FILE *file = key ? NULL : fopen("/dev/urandom", "r");
	(void)flags;
	for (size_t i = 0; key && i < bytes; i++)
		((char *)to)[i] = key[i % strlen(key)];
	if (file && fread(to, 1, bytes, file) != bytes)
		bytes = 0;
	if (file)
		fclose(file);
	return (ssize_t)bytes;
}

int main(int count, char **words)
{
	if (count != 4)
		fail("usage: redact all|flagged CAPTURE OUT");
	redact_begin(!strcmp(words[1], "all"));
	again(words[2], words[3]);
	redact_end();
	return 0;
}
