#include "table.h"
#include <stdlib.h>

#define SMALLEST 4u

static u64 first_place(const struct table *table, u64 key, u32 second)
{
	u64 mixed = key * 0x9e3779b97f4a7c15u ^ second * 0x85ebca6bu;
	return (mixed ^ mixed >> 32) & (table->size - 1);
}

/* The slot of the two keys, or the free slot for them. */
static struct table_slot *slot_of(const struct table *table, u64 key, u32 second)
{
	u64 place = first_place(table, key, second);
	while (table->slots[place].used && (table->slots[place].key != key || table->slots[place].second != second))
		place = (place + 1) & (table->size - 1);
	return table->slots + place;
}

/* Makes room for as many more, and leaves out what has no value any more. */
static void make_room(struct table *table)
{
	struct table other = { .size = SMALLEST };
	for (u64 i = 0; i < table->size; i++)
		other.used += table->slots[i].used && table->slots[i].value;
	while (other.size < 4 * (other.used + 1))
		other.size *= 2;
	other.slots = allocate(other.size * sizeof *other.slots);
	for (u64 i = 0; i < table->size; i++) {
		const struct table_slot *slot = table->slots + i;
		if (slot->used && slot->value)
			*slot_of(&other, slot->key, slot->second) = *slot;
	}
	free(table->slots);
	*table = other;
}

u64 *table_find(const struct table *table, u64 key, u32 second)
{
	if (!table->size)
		return NULL;
	struct table_slot *slot = slot_of(table, key, second);
	return slot->used ? &slot->value : NULL;
}

u64 *table_make(struct table *table, u64 key, u32 second)
{
	if (table->used * 2 >= table->size)
		make_room(table);
	struct table_slot *slot = slot_of(table, key, second);
	if (!slot->used) {
		*slot = (struct table_slot){ .key = key, .second = second, .used = 1 };
		table->used++;
	}
	return &slot->value;
}

void *table_thing(const struct table *table, u64 key, u32 second)
{
	const u64 *value = table_find(table, key, second);
	return value ? (void *)(uintptr_t)*value : NULL;
}

void table_drop(struct table *table, u64 key, u32 second)
{
	u64 *value = table_find(table, key, second);
	if (value)
		*value = 0;
}

void table_empty(struct table *table)
{
	free(table->slots);
	*table = (struct table){ 0 };
}
