/* Takes the messages out of the BPF program's ring. */
#ifndef RECORDER_RING_H
#define RECORDER_RING_H
#include "common.h"

struct ring {
	volatile u64 *taken;		/* up to where the loader has read */
	const volatile u64 *put;	/* up to where the BPF program has written */
	const u8 *bytes;		/* the ring, mapped twice in a row so that every message is contiguous */
	u64 size;
	int lends;			/* messages stay in the ring until it gets its room back */
	u64 heard;			/* up to where messages were handed over */
};

/* How many bytes wait in the ring. */
static inline u64 ring_waiting(const struct ring *ring)
{
	return __atomic_load_n(ring->put, __ATOMIC_ACQUIRE) - *ring->taken;
}

/* Gives the room of the messages that were handed over back to the ring. */
static inline void ring_give_back(struct ring *ring)
{
	__atomic_store_n(ring->taken, ring->heard, __ATOMIC_RELEASE);
}

/* Returns 0, or an errno. */
int ring_open(struct ring *ring, int descriptor, u64 size);
/* Hands each message that was written before the call to `hear`, and gives its room back, unless the ring lends it.
 * Returns how many there were, or -1 if it stopped at a message that is still being written. */
long ring_drain(struct ring *ring, void (*hear)(const void *message, u64 bytes));
#endif
