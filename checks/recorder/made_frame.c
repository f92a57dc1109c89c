/* Frames of callers that are made up: see made_frame.h. */
#include "made_frame.h"
#include <string.h>

#define MOST_BEHIND 16383u	/* bytes of data in the message of a small frame: small.bpf.h */

static u8 *commands;		/* of the next frame */
static u32 used, room;

/* Memory for the next message. None is given back: what the loader takes of malloc is counted. */
static void *message_of(u64 bytes)
{
	static void *message;
	static u64 most;
	if (bytes > most)
		message = resize(message, most = 2 * bytes);
	return message;
}

struct message head_of(u32 type, u32 direction, u64 number, u32 opening, u32 thread)
{
	return (struct message){ type, direction, number, now(), opening, thread };
}

/* The name as the kernel has it. */
static const char *name_of(const char *name)
{
	static char its_name[NAME_BYTES];
	memset(its_name, 0, sizeof its_name);
	return memcpy(its_name, name, strnlen(name, NAME_BYTES - 1));
}

void made_process(u32 opening, u32 process, u64 start, const char *name, enum met met)
{
	names_opening(opening, now(), 0, process, start, name_of(name), met);
	names_thread(opening, process, process, start, name_of(name));
}

void made_opening(u32 opening, u32 process, const char *name)
{
	names_opening(opening, now(), 0, process, 1, name_of(name), MET_FROM_START);
}

void made_thread(u32 thread, u32 id, u32 process, const char *name)
{
	names_thread(thread, id, process, 1, name_of(name));
}

void made_record(u32 word, const void *payload, u32 bytes)
{
	u32 size = (u32)sizeof word + bytes;
	if (used + size > room)
		commands = resize(commands, room = 2 * (used + size));
	memcpy(commands + used, &word, sizeof word);
	memset(commands + used + sizeof word, 0, bytes);
	if (payload)
		memcpy(commands + used + sizeof word, payload, bytes);
	used += size;
}

void made_code(u32 word)
{
	made_record(word, NULL, 0);
}

void made_send(u32 word, struct binder_transaction_data data)
{
	made_record(word, &data, sizeof data);
}

static struct piece piece_of(struct message head, u32 data, u32 at, u32 bytes)
{
	head.type = MESSAGE_PIECE;
	return (struct piece){ .head = head, .record = used - RECORD, .data = data, .at = at, .bytes = bytes };
}

static void hear_pieces(hearer *hear, struct message head, const u8 *data, u32 bytes)
{
	struct piece *piece = message_of(sizeof *piece + CHUNK);
	for (u32 at = 0, count; at < bytes; at += count) {
		count = bytes - at < CHUNK ? bytes - at : CHUNK;
		*piece = piece_of(head, bytes, at, count);
		memcpy(piece + 1, data + at, count);
		hear(piece, sizeof *piece + count);
	}
}

static void hear_commands(hearer *hear, struct message head, const void *data, u32 bytes)
{
	u64 size = sizeof(struct chunk) + used, at = MULTIPLE_OF_8(size);
	struct chunk *chunk = message_of(at + sizeof(struct piece) + bytes);
	head.type = MESSAGE_CHUNK;
	*chunk = (struct chunk){ .head = head, .commands = used, .next = head.direction == DIRECTION_WRITE ? used : 0 };
	memcpy(chunk + 1, commands, used);
	if (bytes) {
		struct piece *piece = (void *)((u8 *)chunk + at);
		*piece = piece_of(head, bytes, 0, bytes);
		memcpy(piece + 1, data, bytes);
		size = at + sizeof *piece + bytes;
	}
	hear(chunk, size);
}

u32 made_begun(hearer *hear, struct message head, const void *data, u32 bytes)
{
	u32 made = used, behind = bytes > MOST_BEHIND ? 0 : bytes;
	if (head.direction == DIRECTION_READ)
		hear_pieces(hear, head, data, bytes - behind);
	hear_commands(hear, head, data, behind);
	if (head.direction == DIRECTION_WRITE)
		hear_pieces(hear, head, data, bytes - behind);
	used = 0;
	return made;
}

void made_event(hearer *hear, struct message head, u64 first, u64 second, u64 third)
{
	struct event event = { .head = head, .words = { first, second, third } };
	hear(&event, sizeof event);
}

void made_written(hearer *hear, struct message head, u64 bytes)
{
	head.type = MESSAGE_WRITTEN;
	made_event(hear, head, bytes, 0, 0);
}

void made_frame(hearer *hear, struct message head, const void *data, u32 bytes)
{
	u32 made = made_begun(hear, head, data, bytes);
	if (head.direction == DIRECTION_WRITE)
		made_written(hear, head, made);
}
