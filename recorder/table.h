/* A table from two numbers to one. A value of 0 is none, and its keys are forgotten in time. */
#ifndef RECORDER_TABLE_H
#define RECORDER_TABLE_H
#include "common.h"

struct table_slot {
	u64 key, value;
	u32 second, used;
};

struct table {
	struct table_slot *slots;
	u64 size, used;
};

/* The value of the two keys, or NULL if there is none. */
u64 *table_find(const struct table *table, u64 key, u32 second);
/* The value of the two keys; a new value is 0. The pointer is valid until the next call. */
u64 *table_make(struct table *table, u64 key, u32 second);
/* The address that the table has for the two keys, or NULL. */
void *table_thing(const struct table *table, u64 key, u32 second);
/* From now on there is none for them. */
void table_drop(struct table *table, u64 key, u32 second);
/* Forgets all. */
void table_empty(struct table *table);
#endif
