#include "slice.h"
#include "common.h"

#define LONGEST_SLICE 20000000u		/* nanoseconds */

static u64 until;

void slice_begin(void)
{
	until = now() + LONGEST_SLICE;
}

int slice_is_over(void)
{
	return now() >= until;
}
