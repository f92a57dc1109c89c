#include "clocks.h"
#include "side.h"
#include <stdio.h>

#define ROUNDS 5
#define SECOND 1000000000u
#define SHORTEST_SLEEP 1000000u			/* in nanoseconds; a change of the clocks' own rates is less */
#define SMALLEST_SET 10000000			/* the wall clock may also be steered, by little at a time */

static u64 ahead;				/* how far CLOCK_BOOTTIME is ahead, or a little more */
static u64 wall_ahead;				/* how far the wall clock was ahead when that was told */
static char line[128];				/* the last line, empty before there is one */

static u64 nanoseconds(struct timespec time)
{
	return (u64)time.tv_sec * SECOND + (u64)time.tv_nsec;
}

/* Between two clocks the processor may be lost, so of a few readings the fastest one counts. */
struct moment clocks_read(void)
{
	struct moment best = { 0 };
	u64 took = UINT64_MAX;
	for (int i = 0; i < ROUNDS; i++) {
		struct moment m = { .time = now() };
		clock_gettime(CLOCK_BOOTTIME, &m.boot);
		clock_gettime(CLOCK_REALTIME, &m.wall);
		u64 end = now();
		if (end - m.time < took) {
			took = end - m.time;
			best = m;
		}
	}
	ahead = nanoseconds(best.boot) - best.time;
	wall_ahead = nanoseconds(best.wall) - best.time;
	return best;
}

/* Whether the wall clock shows another time than what was told lets expect. If the processor is lost meanwhile, the next
 * look tells. */
static int wall_was_set(void)
{
	struct timespec wall;
	u64 time = now();
	clock_gettime(CLOCK_REALTIME, &wall);
	int64_t by = (int64_t)(nanoseconds(wall) - time - wall_ahead);
	return now() - time < SHORTEST_SLEEP && (by > SMALLEST_SET || by < -SMALLEST_SET);
}

/* If the processor is lost between the two clocks, less seems to have been slept, and never more. */
void clocks_look(void)
{
	struct timespec boot;
	clock_gettime(CLOCK_BOOTTIME, &boot);
	if (nanoseconds(boot) > now() + ahead + SHORTEST_SLEEP || wall_was_set())
		clocks_tell();
}

void clocks_tell(void)
{
	struct moment m = clocks_read();
	snprintf(line, sizeof line, "%llu clocks realtime=%llu boottime=%llu\n", (unsigned long long)m.time,
		 (unsigned long long)nanoseconds(m.wall), (unsigned long long)nanoseconds(m.boot));
	side_text(line);
}

void clocks_tell_again(void)
{
	side_text(line);
}
