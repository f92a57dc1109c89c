#include "rates.h"
#include "table.h"
#include <stdlib.h>

#define MOST_RATES 65536u		/* of more, those that did not come lately are forgotten */

static struct table places;		/* by all that tells one from others: its place in `rates`, and 1 more */
static struct rate *rates;
static const struct rate **sorted;
static u32 rate_count, room;

static u64 *place_of(const struct rate *rate)
{
	u64 key = (rate->from << 32 | rate->to) ^ (u64)rate->interface << 48 ^ (u64)rate->from_pid * 0x9e3779b97f4a7c15u;
	return table_make(&places, key, rate->code << 8 ^ rate->device << 1 ^ rate->is_oneway ^ rate->interface << 16);
}

static void make_room(void)
{
	if (rate_count < room)
		return;
	room = room ? 2 * room : 256;
	rates = resize(rates, room * sizeof *rates);
	sorted = resize(sorted, room * sizeof *sorted);
}

/* Two that differ may have one place by chance: then the one that came first counts for both. */
void rates_count(const struct rate *rate)
{
	u64 *place = place_of(rate);
	if (*place) {
		rates[*place - 1].now++;
		return;
	}
	if (rate_count == MOST_RATES)
		return;
	make_room();
	rates[rate_count] = *rate;
	rates[rate_count].now = 1;
	*place = ++rate_count;
}

static int compare(const void *one, const void *other)
{
	const struct rate *a = *(const struct rate *const *)one, *b = *(const struct rate *const *)other;
	if (a->now != b->now)
		return a->now < b->now ? 1 : -1;
	return a < b ? -1 : 1;
}

const struct rate *const *rates_sorted(u32 *count)
{
	u32 found = 0;
	for (u32 i = 0; i < rate_count; i++)
		if (rates[i].now)
			sorted[found++] = rates + i;
	if (found)
		qsort(sorted, found, sizeof *sorted, compare);
	*count = found;
	return sorted;
}

/* Forgets those that did not come since the last look. */
static void forget_idle(void)
{
	u32 left = 0;
	table_empty(&places);
	for (u32 i = 0; i < rate_count; i++)
		if (rates[i].now) {
			rates[left] = rates[i];
			*place_of(rates + left) = left + 1;
			left++;
		}
	rate_count = left;
}

void rates_pass(void)
{
	if (rate_count > MOST_RATES / 2)
		forget_idle();
	for (u32 i = 0; i < rate_count; i++) {
		rates[i].all += rates[i].now;
		rates[i].now = 0;
	}
}
