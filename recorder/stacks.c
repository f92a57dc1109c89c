#include "stacks.h"
#include "maps.h"
#include "side.h"
#include "table.h"
#include <stdio.h>
#include <stdlib.h>
#include <string.h>
#include <sys/random.h>
#include <time.h>

/* When more than this is kept, all is forgotten. What comes again after that is told again, with another number. */
#define MOST_STACKS 16384u
#define MOST_MAPS 262144u
/* After an answer that does not have an address, maps are asked for again after this time, then after twice as long. */
#define FIRST_PAUSE 100000000u
#define LONGEST_PAUSE 10000000000u
#define LAST_WAIT 1000000000u		/* for the last answers, in nanoseconds */
#define LONGEST_PATH 1024u

struct known_stack {
	u32 memory;			/* its place in `memories` */
	u32 before;			/* the stack before it of this memory: its place, plus 1 */
	u32 told;			/* in which side list */
	u32 count;
	u64 *addresses;
};

/* The memory of a process, from its start or from exec on. */
struct known_memory {
	u64 start;
	u32 process, stacks;		/* its last stack: the place, plus 1 */
	struct map *maps;		/* rising */
	u32 map_count;
	int is_asked, wants;		/* an answer comes; one more is wanted */
	int is_unmapped;		/* it was told that there is none */
	u64 pause, again;		/* when it may be asked again */
};

static int is_begun;
static u64 seed[2];			/* nobody can know which stacks have one hash */
static struct known_stack *stacks;
static struct known_memory *memories;
static u32 stack_count, memory_count, map_count;
static u32 first_stack = 1, first_memory = 1;	/* the numbers of the first ones that are kept */
static struct table stack_of;		/* by hash and memory: the place of the stack, plus 1 */
static struct table memory_of;		/* by the kernel's address and process: the place of the memory, plus 1 */
static u32 list = 1, first_of_list = 1;	/* which side list is written, and the first stack that came since it began */
static u64 forgotten, unmapped;

void stacks_begin(void)
{
	if (getrandom(seed, sizeof seed, 0) != sizeof seed)
		fail("the system has no random bytes");
	seed[1] |= 1;
	is_begun = 1;
}

u64 stacks_forgotten(void)
{
	return forgotten;
}

u64 stacks_unmapped(void)
{
	return unmapped;
}

static void forget(void)
{
	for (u32 i = 0; i < stack_count; i++)
		free(stacks[i].addresses);
	for (u32 i = 0; i < memory_count; i++)
		free(memories[i].maps);
	first_stack += stack_count;
	first_memory += memory_count;
	stack_count = memory_count = map_count = 0;
	table_empty(&stack_of);
	table_empty(&memory_of);
}

/* ---- lines */

/* The map in which the call is from which a function returns to this address. */
static struct map *map_of(const struct known_memory *memory, u64 address)
{
	u32 low = 0, high = memory->map_count;
	while (low < high) {
		u32 middle = (low + high) / 2;
		if (memory->maps[middle].end <= address - 1)
			low = middle + 1;
		else
			high = middle;
	}
	return low < memory->map_count && memory->maps[low].start <= address - 1 ? memory->maps + low : NULL;
}

static void add_build_id(char *to, const struct code_file *code)
{
	for (u32 i = 0; i < code->build_id_bytes; i++)
		to += sprintf(to, "%02x", code->build_id[i]);
}

static void tell_map(u32 memory, const struct map *map, u64 time)
{
	const struct known_memory *m = memories + memory;
	char text[4 * LONGEST_PATH + 512], name[4 * LONGEST_PATH + 1] = "";
	char build_id[2 * MOST_BUILD_ID + 1] = "-", address[32] = "-";
	u64 its_address;
	if (map->file) {
		clean_name(name, map->file->path, LONGEST_PATH);
		add_build_id(build_id, &map->file->code);
		if (code_file_address(&map->file->code, map->offset, map->end - map->start, &its_address))
			snprintf(address, sizeof address, "0x%llx", (unsigned long long)its_address);
	}
	snprintf(text, sizeof text,
		 "%llu map %u pid=%u start=0x%llx end=0x%llx offset=0x%llx address=%s build-id=%s name=%s\n",
		 (unsigned long long)time, first_memory + memory, m->process, (unsigned long long)map->start,
		 (unsigned long long)map->end, (unsigned long long)map->offset, address, build_id, name);
	side_text(text);
}

static void tell_maps(const struct known_stack *stack, u64 time)
{
	for (u32 i = 0; i < stack->count; i++) {
		struct map *map = map_of(memories + stack->memory, stack->addresses[i]);
		if (map && map->told != list)
			tell_map(stack->memory, map, time);
		if (map)
			map->told = list;
	}
}

static void tell_stack(struct known_stack *stack, u64 time)
{
	char text[128 + MOST_OF_STACK * 20], *to = text;
	to += sprintf(to, "%llu stack %u memory=%u pid=%u pcs=", (unsigned long long)time,
		      first_stack + (u32)(stack - stacks), first_memory + stack->memory,
		      memories[stack->memory].process);
	for (u32 i = 0; i < stack->count; i++)
		to += sprintf(to, "%s0x%llx", i ? "," : "", (unsigned long long)stack->addresses[i]);
	strcpy(to, "\n");
	side_text(text);
	stack->told = list;
	tell_maps(stack, time);
}

void stacks_tell_call(u64 time, u64 number, u32 stack)
{
	if (stack < first_stack && stack < first_of_list) {
		side_line(time, "unstacked 1 what=forgotten from=%llu after=%llu", (unsigned long long)number,
			  (unsigned long long)number);
		forgotten++;
		return;
	}
	if (stack >= first_stack && stacks[stack - first_stack].told != list)
		tell_stack(stacks + (stack - first_stack), time);
	side_line(time, "call %llu stack=%u", (unsigned long long)number, stack);
}

void stacks_tell_again(void)
{
	list++;
	first_of_list = first_stack + stack_count;
}

/* ---- maps */

static void ask(u32 memory)
{
	struct known_memory *m = memories + memory;
	m->wants = 1;
	if (m->is_asked || now() < m->again)
		return;
	m->is_asked = maps_ask(first_memory + memory, m->process, m->start);
	m->wants = !m->is_asked;
}

/* Whether two maps have the same addresses, of the same place in the same file. */
static int is_equal(const struct map *one, const struct map *other)
{
	return one->start == other->start && one->end == other->end && one->offset == other->offset &&
	       one->file == other->file;
}

/* Whether two maps have an address in common. */
static int overlaps(const struct map *one, const struct map *other)
{
	return one->start < other->end && other->start < one->end;
}

/* Puts what was read in the place of the maps, with those before that are still told and have no address of others. */
static void replace_maps(struct known_memory *m, const struct maps_answer *answer)
{
	struct map *all = allocate((m->map_count + answer->count) * sizeof *all);
	u32 count = 0, old = 0, new = 0;
	while (old < m->map_count || new < answer->count) {
		struct map *before = old < m->map_count ? m->maps + old : NULL;
		struct map *read = new < answer->count ? answer->maps + new : NULL;
		if (!read || (before && before->end <= read->start)) {
			if (before->told)
				all[count++] = *before;
			old++;
		} else if (!before || !overlaps(before, read)) {
			all[count++] = *read;
			new++;
		} else {
			if (is_equal(before, read))
				read->told = before->told;
			old++;
		}
	}
	map_count += count - m->map_count;
	free(m->maps);
	m->maps = all;
	m->map_count = count;
}

static void tell_unmapped(u32 memory, const char *why)
{
	struct known_memory *m = memories + memory;
	if (m->map_count || m->is_unmapped)
		return;
	side_line(now(), "unmapped %u pid=%u why=%s", first_memory + memory, m->process, why);
	m->is_unmapped = 1;
	unmapped++;
}

static void hear_answer(const struct maps_answer *answer)
{
	struct known_memory *m = memories + (answer->memory - first_memory);
	m->is_asked = 0;
	m->pause = m->pause ? 2 * m->pause : FIRST_PAUSE;
	if (m->pause > LONGEST_PAUSE)
		m->pause = LONGEST_PAUSE;
	m->again = now() + m->pause;
	if (!answer->why)
		replace_maps(m, answer);
	else
		tell_unmapped(answer->memory - first_memory, answer->why);
	for (u32 place = m->stacks; place; place = stacks[place - 1].before)
		if (stacks[place - 1].told == list)
			tell_maps(stacks + place - 1, now());
}

static void take_answers(void)
{
	struct maps_answer *answer;
	while ((answer = maps_take()) != NULL) {
		if (answer->memory >= first_memory)
			hear_answer(answer);
		maps_free(answer);
	}
}

void stacks_look(void)
{
	static u64 looked;
	if (!is_begun)
		return;
	take_answers();
	u64 time = now();
	if (time - looked < FIRST_PAUSE / 2)
		return;
	looked = time;
	for (u32 i = 0; i < memory_count; i++)
		if (memories[i].wants)
			ask(i);
}

void stacks_end(void)
{
	struct timespec moment = { .tv_nsec = 1000000 };
	for (u64 began = now(); maps_awaited() && now() - began < LAST_WAIT; nanosleep(&moment, NULL))
		take_answers();
	take_answers();
	for (u32 i = 0; i < memory_count; i++)
		if (memories[i].is_asked || memories[i].wants)
			tell_unmapped(i, "late");
}

/* ---- stacks */

static u32 place_of_memory(const struct stack *stack)
{
	u64 *place = table_make(&memory_of, stack->memory, stack->process);
	if (*place && memories[*place - 1].start == stack->start)
		return (u32)(*place - 1);
	if (!(memory_count & (memory_count - 1)))
		memories = resize(memories, (memory_count ? 2 * memory_count : 1) * sizeof *memories);
	memories[memory_count++] = (struct known_memory){ .start = stack->start, .process = stack->process };
	*place = memory_count;
	return memory_count - 1;
}

static u64 hash_of(const struct stack *stack)
{
	u64 hash = seed[0];
	for (u32 i = 0; i < stack->count; i++) {
		hash = (hash ^ stack->addresses[i]) * seed[1];
		hash ^= hash >> 29;
	}
	return hash;
}

static int is_same(const struct known_stack *known, const struct stack *stack)
{
	return known->count == stack->count &&
	       !memcmp(known->addresses, stack->addresses, stack->count * sizeof *stack->addresses);
}

static u32 add_stack(u32 memory, const struct stack *stack)
{
	u64 bytes = stack->count * sizeof *stack->addresses;
	if (!(stack_count & (stack_count - 1)))
		stacks = resize(stacks, (stack_count ? 2 * stack_count : 1) * sizeof *stacks);
	struct known_stack *s = stacks + stack_count++;
	*s = (struct known_stack){ .memory = memory, .before = memories[memory].stacks, .count = stack->count };
	s->addresses = allocate(bytes);
	memcpy(s->addresses, stack->addresses, bytes);
	memories[memory].stacks = stack_count;
	tell_stack(s, stack->head.time);
	for (u32 i = 0; i < s->count; i++)
		if (!map_of(memories + memory, s->addresses[i])) {
			ask(memory);
			break;
		}
	return stack_count;
}

u32 stacks_hear(const struct stack *stack)
{
	if (!is_begun || !stack->count || stack->count > MOST_OF_STACK)
		return 0;
	if (stack_count == MOST_STACKS || map_count > MOST_MAPS)
		forget();
	u32 memory = place_of_memory(stack);
	u64 hash = hash_of(stack), *place = table_make(&stack_of, hash, memory);
	while (*place && !is_same(stacks + *place - 1, stack))
		place = table_make(&stack_of, ++hash, memory);
	if (!*place)
		*place = add_stack(memory, stack);
	return first_stack + (u32)*place - 1;
}
