#include "ring.h"
#include <errno.h>
#include <linux/bpf.h>
#include <sys/mman.h>
#include <unistd.h>

int ring_open(struct ring *ring, int descriptor, u64 size)
{
	u64 page = (u64)sysconf(_SC_PAGESIZE);
	u8 *first = mmap(NULL, page, PROT_READ | PROT_WRITE, MAP_SHARED, descriptor, 0);
	if (first == MAP_FAILED)
		return errno;
	const u8 *second = mmap(NULL, page + 2 * size, PROT_READ, MAP_SHARED, descriptor, (off_t)page);
	if (second == MAP_FAILED)
		return errno;
	ring->taken = (volatile u64 *)(void *)first;
	ring->put = (const volatile u64 *)(const void *)second;
	ring->bytes = second + page;
	ring->size = size;
	ring->lends = 0;
	ring->heard = *ring->taken;
	return 0;
}

long ring_drain(struct ring *ring, void (*hear)(const void *message, u64 bytes))
{
	u64 end = __atomic_load_n(ring->put, __ATOMIC_ACQUIRE), at = *ring->taken;
	long count = 0;
	while (at < end) {
		const u8 *head = ring->bytes + (at & (ring->size - 1));
		u32 length = __atomic_load_n((const u32 *)(const void *)head, __ATOMIC_ACQUIRE);
		if (length & BPF_RINGBUF_BUSY_BIT)
			return -1;
		u64 bytes = length & ~(BPF_RINGBUF_BUSY_BIT | BPF_RINGBUF_DISCARD_BIT);
		if (!(length & BPF_RINGBUF_DISCARD_BIT))
			hear(head + BPF_RINGBUF_HDR_SZ, bytes);
		at += (bytes + BPF_RINGBUF_HDR_SZ + 7) & ~7ull;
		ring->heard = at;
		if (!ring->lends)
			ring_give_back(ring);
		count++;
	}
	return count;
}
