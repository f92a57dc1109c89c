#define _GNU_SOURCE
#include "interfaces.h"
#include "table.h"
#include "token.h"
#include <stdio.h>
#include <string.h>

#define MOST_INTERFACES 16384u
#define TOKEN_ROOM 544u			/* the longest token that token.c takes has fewer bytes */
#define NUMBERS_BEFORE 12u		/* the most bytes before a name of a Parcel, which differ from call to call */

static struct table numbers;		/* by a hash of the name */
static char (*names)[INTERFACE_BYTES];
static u32 count, room;

/* Where the name begins in a token, and how many bytes each of its characters has there. */
static u64 name_begin(const u8 *token, u64 bytes, u64 *step)
{
	*step = 2;
	for (u64 head = NUMBERS_BEFORE; head >= 4; head -= 4) {
		u64 begin = head + 4;
		if (begin < bytes && ((begin + ((u64)load_u32(token + head) + 1) * 2 + 3) & ~3ull) == bytes)
			return begin;
	}
	*step = 1;
	return 0;
}

static u64 hash_of(const u8 *name, u64 bytes)
{
	u64 hash = 14695981039346656037u;
	for (u64 i = 0; i < bytes; i++)
		hash = (hash ^ name[i]) * 1099511628211u;
	return hash;
}

/* What follows the last dot of a Java name; the whole of one in HIDL, whose version has dots. */
static void keep_name(char *to, const u8 *name, u64 bytes, u64 step)
{
	char text[TOKEN_ROOM];
	u64 length = 0;
	for (u64 at = 0; at < bytes && name[at]; at += step)
		text[length++] = (char)name[at];
	text[length] = 0;
	const char *dot = step == 2 ? strrchr(text, '.') : NULL;
	snprintf(to, INTERFACE_BYTES, "%.*s", (int)INTERFACE_BYTES - 1, dot ? dot + 1 : text);
}

static u32 number_of(const u8 *name, u64 bytes, u64 step)
{
	u64 *number = table_make(&numbers, hash_of(name, bytes), (u32)bytes);
	if (*number || count == MOST_INTERFACES)
		return (u32)*number;
	if (count == room) {
		room = room ? 2 * room : 64;
		names = resize(names, room * sizeof *names);
	}
	keep_name(names[count], name, bytes, step);
	return (u32)(*number = ++count);
}

/* ---- tokens that came lately: most calls have one of few */

/* What follows the two numbers that may differ from call to call. */
#define HEAD 8u
#define NAME 16u			/* where the name begins, since Android 11 */
static struct lately {
	u32 bytes, number;		/* of the whole token; 0: none */
	u8 rest[2 * 128];
} lately[64];

/* The place of data that begins with a token, by the end of its name, in which alike ones differ; NULL if it has none. */
static struct lately *lately_of(const u8 *data, u64 bytes)
{
	u64 end = bytes > NAME ? NAME + 2 * (u64)load_u32(data + NAME - 4) : 0, last;
	if (end < NAME + sizeof last || end > bytes)
		return NULL;
	memcpy(&last, data + end - sizeof last, sizeof last);
	return lately + (last * 0x9e3779b97f4a7c15u >> 58);
}

static void keep_lately(struct lately *l, const u8 *token, u64 bytes, u32 number)
{
	if (bytes - HEAD > sizeof l->rest)
		return;
	l->bytes = (u32)bytes;
	l->number = number;
	memcpy(l->rest, token + HEAD, bytes - HEAD);
}

static u32 number_in(const u8 *data, u64 count)
{
	struct lately *l = lately_of(data, count);
	if (l && l->bytes && l->bytes <= count && !memcmp(data + HEAD, l->rest, l->bytes - HEAD))
		return l->number;
	u64 step, bytes = token_bytes(data, count), begin = bytes ? name_begin(data, bytes, &step) : 0;
	u32 number = bytes ? number_of(data + begin, bytes - begin, step) : 0;
	if (l && number && begin == NAME)
		keep_lately(l, data, bytes, number);
	return number;
}

u32 interface_of(const struct frame *frame, u32 record)
{
	u8 data[TOKEN_ROOM];
	const struct entry *entry = frame->entries;
	while (entry && entry->record < record)
		entry = entry->next;
	if (!entry || entry->record != record || entry->got != (u64)entry->data + entry->offsets)
		return 0;
	u64 bytes = entry->data < sizeof data ? entry->data : sizeof data;
	if (entry->bytes)
		return number_in(entry->bytes, bytes);
	entry_read(entry, 0, data, bytes);
	return number_in(data, bytes);
}

const char *interface_name(u32 interface)
{
	return interface && interface <= count ? names[interface - 1] : "-";
}
