/* Bytes and maps that grow. If there is no memory, the program ends. */
#include <stdlib.h>
#include <string.h>

#include "lines.h"

enum { LEAST_ROOM = 256 };

static void *taken(void *memory)
{
	if (!memory)
		stop(NO_MEMORY, "fault Memory");
	return memory;
}

/* ---- bytes */

void text_reserve(struct text *text, size_t more)
{
	size_t due, room = text->room ? text->room : LEAST_ROOM;
	if (__builtin_add_overflow(text->length, more, &due) || due > SIZE_MAX / 4)
		stop(NO_MEMORY, "fault Memory");
	if (text->bytes && due <= text->room)
		return;
	while (room < due)
		room *= 2;
#ifdef __SANITIZE_ADDRESS__
	room = due;	/* so that it sees what is read behind the bytes */
#endif
	text->bytes = taken(realloc(text->bytes, room));
	text->room = room;
}

void text_add(struct text *text, const char *bytes, size_t length)
{
	text_reserve(text, length);
	memcpy(text->bytes + text->length, bytes, length);
	text->length += length;
}

/* ---- maps */

static bool is_key(const struct map_place *place, const uint64_t key[3])
{
	return place->key[0] == key[0] && place->key[1] == key[1] && place->key[2] == key[2];
}

/* The place of a key, where it is or may be put. */
static struct map_place *place_of(const struct map *map, const uint64_t key[3])
{
	uint64_t mixed = (key[0] * 31 + key[1]) * 31 + key[2];
	size_t at = (size_t)(mixed * 0x9e3779b97f4a7c15 >> 32) & (map->places - 1);
	while (map->place[at].is_taken && !is_key(&map->place[at], key))
		at = (at + 1) & (map->places - 1);
	return &map->place[at];
}

/* Makes room for twice as many keys. */
static void grow(struct map *map)
{
	struct map more = { .taken = map->taken, .places = map->places ? 2 * map->places : LEAST_ROOM };
	more.place = taken(calloc(more.places, sizeof *more.place));
	for (size_t at = 0; at < map->places; at++)
		if (map->place[at].is_taken)
			*place_of(&more, map->place[at].key) = map->place[at];
	free(map->place);
	*map = more;
}

const uint64_t *map_find(const struct map *map, const uint64_t key[3])
{
	if (!map->places)
		return NULL;
	const struct map_place *place = place_of(map, key);
	return place->is_taken ? &place->number : NULL;
}

void map_set(struct map *map, const uint64_t key[3], uint64_t number)
{
	if (2 * map->taken >= map->places)
		grow(map);
	struct map_place *place = place_of(map, key);
	map->taken += !place->is_taken;
	*place = (struct map_place){ { key[0], key[1], key[2] }, number, true };
}
