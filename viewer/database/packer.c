/* Writes packed rows: packed.h has their form. */
#include <errno.h>
#include <fcntl.h>
#include <stdlib.h>
#include <string.h>
#include <unistd.h>

#include "packed.h"

enum { WRITTEN_AT_ONCE = 1 << 20 };

static void *with_room(void *old, size_t bytes)
{
	void *made = realloc(old, bytes);
	if (!made)
		stop("out of memory");
	return made;
}

void packer_begin(struct packer *packer, const char *path, int columns, int repeats, int told)
{
	*packer = (struct packer){ .path = path, .columns = columns, .repeats = repeats, .told = told, .rises = 1 };
	packer->file = open(path, O_WRONLY | O_CREAT | O_EXCL | O_CLOEXEC, 0600);
	if (packer->file < 0)
		stop("%s: %s", path, strerror(errno));
	packer->waiting = with_room(NULL, WRITTEN_AT_ONCE + LONGEST_PACKED + MOST_BYTES);
}

static void write_out(struct packer *packer, const void *bytes, size_t length)
{
	for (const char *at = bytes; length;) {
		ssize_t taken = write(packer->file, at, length);
		if (taken < 0 && errno == EINTR)
			continue;
		if (taken < 0)
			stop("%s: %s", packer->path, strerror(errno));
		at += taken;
		length -= (size_t)taken;
		packer->written += (uint64_t)taken;
	}
}

static void write_waiting(struct packer *packer)
{
	write_out(packer, packer->waiting, packer->held);
	packer->held = 0;
}

static void begin_block(struct packer *packer, int64_t first)
{
	if (packer->blocks == packer->room) {
		packer->room = packer->room ? 2 * packer->room : 1024;
		packer->block = with_room(packer->block, packer->room * sizeof *packer->block);
		if (packer->told)
			packer->values = with_room(packer->values, packer->room * sizeof *packer->values);
	}
	if (packer->told)
		packer->values[packer->blocks] = 0;
	packer->block[packer->blocks++] = (struct packed_block){ first, packer->written + packer->held };
	packer->rows_of_block = 0;
}

static unsigned char *put_number(unsigned char *at, uint64_t number)
{
	for (; number > 0x7f; number >>= 7)
		*at++ = (unsigned char)(number | 0x80);
	*at++ = (unsigned char)number;
	return at;
}

void packer_add(struct packer *packer, uint64_t mask, const int64_t *values)
{
	int is_first = packer->blocks == 0;
	int64_t key = mask & 1 ? values[0] : 0;
	packer->rises &= mask & 1 && (is_first || key > packer->last || (packer->repeats && key == packer->last));
	if (is_first || packer->rows_of_block == ROWS_OF_BLOCK) {
		begin_block(packer, key);
		packer->last = 0;
	}
	packer->rows_of_block++;
	unsigned char row[LONGEST_PACKED], *at = put_number(row, (uint64_t)key - (uint64_t)packer->last);
	packer->last = key;
	at = put_number(at, mask);
	for (uint64_t left = mask & ~(uint64_t)1; left; left &= left - 1)
		at = put_number(at, (uint64_t)values[__builtin_ctzll(left)]);
	if (packer->told && mask >> packer->told & 1)
		packer->values[packer->blocks - 1] |= packed_bit(values[packer->told]);
	unsigned char *to = put_number(packer->waiting + packer->held, (uint64_t)(at - row));
	memcpy(to, row, (size_t)(at - row));
	packer->held = (size_t)(to - packer->waiting) + (size_t)(at - row);
	if (packer->held >= WRITTEN_AT_ONCE)
		write_waiting(packer);
}

int packer_end(struct packer *packer)
{
	uint64_t rows_end = packer->written + packer->held;
	/* The list of blocks is read as numbers of eight bytes, so it begins where such may. */
	while ((packer->written + packer->held) % sizeof(uint64_t))
		packer->waiting[packer->held++] = 0;
	write_waiting(packer);
	struct packed_end end = { packer->blocks, (uint64_t)packer->columns, (uint64_t)packer->told, packer->written,
				  rows_end, (uint64_t)packer->repeats };
	if (packer->blocks)
		write_out(packer, packer->block, packer->blocks * sizeof *packer->block);
	if (packer->blocks && packer->told)
		write_out(packer, packer->values, packer->blocks * sizeof *packer->values);
	write_out(packer, &end, sizeof end);
	if (close(packer->file))
		stop("%s: %s", packer->path, strerror(errno));
	free(packer->block);
	free(packer->values);
	free(packer->waiting);
	return packer->rises;
}
