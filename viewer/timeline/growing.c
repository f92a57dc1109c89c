/* Bytes, and what is found by numbers. */
#include <stdlib.h>
#include <string.h>
#include <time.h>

#include "growing.h"

enum { LEAST_ROOM = 64, LEAST_PLACES = 16, LONGEST_NUMBER = 40 };

/* ---- bytes */

static int make_room(struct bytes *bytes, size_t more)
{
	if (bytes->room - bytes->length >= more)
		return 1;
	size_t room = bytes->room < LEAST_ROOM ? LEAST_ROOM : bytes->room;
	while (room - bytes->length < more) {
		if (room > SIZE_MAX / 2)
			return 0;
		room *= 2;
	}
	unsigned char *at = realloc(bytes->at, room);
	if (!at)
		return 0;
	bytes->at = at;
	bytes->room = room;
	return 1;
}

void bytes_add(struct bytes *bytes, const void *data, size_t length)
{
	if (!length)
		return;
	if (!make_room(bytes, length)) {
		bytes->is_refused = 1;
		return;
	}
	memcpy(bytes->at + bytes->length, data, length);
	bytes->length += length;
}

void bytes_add_varint(struct bytes *bytes, unsigned __int128 number)
{
	unsigned char made[LONGEST_NUMBER];
	size_t length = 0;
	while (number >= 128) {
		made[length++] = (unsigned char)(number & 127) | 128;
		number >>= 7;
	}
	made[length++] = (unsigned char)number;
	bytes_add(bytes, made, length);
}

void bytes_add_decimal(struct bytes *bytes, wide number)
{
	char made[LONGEST_NUMBER];
	size_t at = sizeof made;
	unsigned __int128 left = number < 0 ? -(unsigned __int128)number : (unsigned __int128)number;
	while (left > UINT64_MAX) {
		made[--at] = (char)('0' + (int)(left % 10));
		left /= 10;
	}
	for (uint64_t rest = (uint64_t)left; rest || at == sizeof made; rest /= 10)
		made[--at] = (char)('0' + (int)(rest % 10));
	if (number < 0)
		made[--at] = '-';
	bytes_add(bytes, made + at, sizeof made - at);
}

void bytes_add_hexadecimal(struct bytes *bytes, uint64_t number)
{
	char made[LONGEST_NUMBER];
	size_t at = sizeof made;
	do
		made[--at] = "0123456789abcdef"[number & 15];
	while (number >>= 4);
	bytes_add(bytes, made + at, sizeof made - at);
}

void *with_room(void *things, size_t count, size_t *room, size_t size)
{
	if (count < *room)
		return things;
	size_t more = *room ? 2 * *room : 4;
	void *made = more > SIZE_MAX / size ? NULL : realloc(things, more * size);
	if (made)
		*room = more;
	return made;
}

/* ---- what is found by numbers */

/* A stranger chooses the numbers, but not the salt: so no many of them fall on one place. */
static size_t first_place(const struct found *found, const struct key *key)
{
	uint64_t mixed = found->salt;
	for (int at = 0; at < 4; at++) {
		mixed ^= (uint64_t)key->number[at];
		mixed *= 0xff51afd7ed558ccd;
		mixed ^= mixed >> 32;
		mixed *= 0xc4ceb9fe1a85ec53;
		mixed ^= mixed >> 29;
	}
	return (size_t)mixed & (found->places - 1);
}

static struct place *place_of(const struct found *found, const struct key *key)
{
	for (size_t at = first_place(found, key);; at = (at + 1) & (found->places - 1)) {
		struct place *place = &found->place[at];
		if (!place->is_taken || !memcmp(&place->key, key, sizeof *key))
			return place;
	}
}

wide *found_at(const struct found *found, struct key key)
{
	struct place *place = found->taken ? place_of(found, &key) : NULL;
	return place && place->is_taken ? &place->value : NULL;
}

static int grow(struct found *found)
{
	struct timespec now = { 0 };
	clock_gettime(CLOCK_MONOTONIC, &now);
	struct found grown = { .places = found->places ? 2 * found->places : LEAST_PLACES, .taken = found->taken };
	grown.place = calloc(grown.places, sizeof *grown.place);
	if (!grown.place)
		return 0;
	grown.salt = (uint64_t)(uintptr_t)grown.place ^ (uint64_t)now.tv_nsec << 32;
	for (size_t at = 0; at < found->places; at++)
		if (found->place[at].is_taken)
			*place_of(&grown, &found->place[at].key) = found->place[at];
	free(found->place);
	*found = grown;
	return 1;
}

int found_put(struct found *found, struct key key, wide value)
{
	if (found->taken + 1 > found->places / 4 * 3 && !grow(found))
		return 0;
	struct place *place = place_of(found, &key);
	found->taken += !place->is_taken;
	*place = (struct place){ key, value, 1 };
	return 1;
}

/* What follows is moved up if it may stand where something was taken out. */
static void close_gap(struct found *found, size_t gap)
{
	size_t last = found->places - 1;
	for (size_t at = (gap + 1) & last; found->place[at].is_taken; at = (at + 1) & last) {
		size_t first = first_place(found, &found->place[at].key);
		if (((at - first) & last) < ((at - gap) & last))
			continue;
		found->place[gap] = found->place[at];
		gap = at;
	}
	found->place[gap].is_taken = 0;
}

int found_take(struct found *found, struct key key, wide *value)
{
	struct place *place = found->taken ? place_of(found, &key) : NULL;
	if (!place || !place->is_taken)
		return 0;
	if (value)
		*value = place->value;
	close_gap(found, (size_t)(place - found->place));
	found->taken--;
	return 1;
}

void found_clear(struct found *found)
{
	free(found->place);
	*found = (struct found){ 0 };
}
