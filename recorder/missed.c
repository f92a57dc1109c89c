#include "missed.h"
#include "holders.h"
#include "kernel.h"
#include "side.h"
#include "window.h"

/* So many, told at this time, when the last number taken was at least `from` and at most `after`. */
struct amount {
	u64 time, count, from, after;
};

static struct kind {
	const char *line, *word;
	u64 (*counted)(void);
	u64 before, told;		/* before: how many at the beginning */
	struct amount pending;		/* of which frames that are not written may lack something */
} kinds[MISSED_END] = {
	[MISSED_EVENTS] = { .line = "missed", .word = "events", .counted = kernel_runs_missed },
	[MISSED_NUMBERS] = { .line = "missed", .word = "calls-without-number", .counted = kernel_calls_without_number },
	[MISSED_32_BIT] = { .line = "missed", .word = "calls-of-32-bits", .counted = kernel_calls_32_bit },
	[MISSED_STACK_ROOM] = { .line = "unstacked", .word = "ring-full", .counted = kernel_stacks_without_room },
	[MISSED_STACK_FAILED] = { .line = "unstacked", .word = "unreadable", .counted = kernel_stacks_failed },
	[MISSED_STACK_EMPTY] = { .line = "unstacked", .word = "empty", .counted = kernel_stacks_empty },
};

#define HOLDERS_EVERY 1000000000u	/* nanoseconds */

static u64 number_at_last_look;
static u64 holders_told;

void missed_begin(void)
{
	for (int i = 0; i < MISSED_END; i++)
		kinds[i].before = kinds[i].told = kinds[i].counted();
}

static void tell(const struct kind *kind, struct amount amount)
{
	side_line(amount.time, "%s %llu what=%s from=%llu after=%llu", kind->line, (unsigned long long)amount.count,
		  kind->word, (unsigned long long)amount.from, (unsigned long long)amount.after);
}

/* Whether the frame of this number, or a later one, may lack some of it. */
static int concerns(struct amount amount, u64 number)
{
	return amount.count && amount.after + 1 >= number;
}

static void add_pending(struct kind *kind, struct amount amount)
{
	if (concerns(kind->pending, window_last() + 1)) {
		amount.count += kind->pending.count;
		amount.from = kind->pending.from;
	}
	kind->pending = amount;
}

void missed_tell(void)
{
	u64 number = kernel_last_number();
	for (struct kind *kind = kinds; kind < kinds + MISSED_END; kind++) {
		u64 count = kind->counted();
		if (count == kind->told)
			continue;
		struct amount amount = { now(), count - kind->told, number_at_last_look, kernel_last_number() };
		tell(kind, amount);
		add_pending(kind, amount);
		kind->told = count;
		if (kind == kinds + MISSED_NUMBERS && now() - holders_told > HOLDERS_EVERY) {
			holders_tell();
			holders_told = now();
		}
	}
	number_at_last_look = number;
}

void missed_tell_again(u64 number)
{
	for (struct kind *kind = kinds; kind < kinds + MISSED_END; kind++)
		if (concerns(kind->pending, number)) {
			tell(kind, kind->pending);
			if (kind == kinds + MISSED_NUMBERS)
				holders_tell();
		}
}

u64 missed_count(enum missed what)
{
	return kinds[what].told - kinds[what].before;
}
