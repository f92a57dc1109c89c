#include "pool.h"
#include <stdlib.h>

/* There are four sizes from each power of two to the next one, so that less than a quarter goes unused. */
#define SMALLEST_BITS 6
#define LARGEST_BITS 17			/* what needs more is not kept */
#define SIZES (4 * (LARGEST_BITS - SMALLEST_BITS) + 1)
#define MOST_KEPT (8u << 20)		/* bytes, of all sizes together */

/* What is kept of one size. */
struct kept {
	struct kept *next;
};

static struct kept *kept[SIZES];
static u64 kept_bytes;

/* The highest bit of a number above the smallest size. */
static u32 high_bit(u64 number)
{
	return 63 - (u32)__builtin_clzll(number);
}

u64 pool_room(u64 bytes)
{
	if (bytes <= 1u << SMALLEST_BITS)
		return 1u << SMALLEST_BITS;
	u32 step = high_bit(bytes - 1) - 2;
	return bytes > 1u << LARGEST_BITS ? bytes : (((bytes - 1) >> step) + 1) << step;
}

/* Of memory with so much room. */
static struct kept **kept_of(u64 room)
{
	u32 bit = high_bit(room);
	return &kept[4 * (bit - SMALLEST_BITS) + (room >> (bit - 2) & 3)];
}

void *pool_take(u64 bytes)
{
	u64 room = pool_room(bytes);
	struct kept **all = room <= 1u << LARGEST_BITS ? kept_of(room) : NULL;
	if (!all || !*all)
		return resize(NULL, room);
	struct kept *taken = *all;
	*all = taken->next;
	kept_bytes -= room;
	return taken;
}

void pool_give(void *memory, u64 bytes)
{
	u64 room = pool_room(bytes);
	if (!memory || room > 1u << LARGEST_BITS || kept_bytes + room > MOST_KEPT) {
		free(memory);
		return;
	}
	struct kept **all = kept_of(room), *given = memory;
	given->next = *all;
	*all = given;
	kept_bytes += room;
}
