/* lent OUT RING|copied [redact]: gives the recorder's loader the messages of reads and writes with large and small
 * attachments, from a ring of so many bytes. There large attachments stay until they are written, if the ring has few
 * bytes for its size; `copied`: all are copied at once. The files are the same. See loader. */
#define _GNU_SOURCE
#include "kit.h"
#include "made_frame.h"
#include "met.h"
#include "names.h"
#include "parts.h"
#include "redact.h"
#include "window.h"
#include <stdlib.h>
#include <string.h>
#include <sys/random.h>
#include <sys/uio.h>
#include <unistd.h>

enum {
	MOST_RING = 64 << 20,	/* bytes, as by default */
	LOOKS = 60,		/* at the ring */
	FRAMES = 12,		/* that come before each */
	SIZE = 1 << 20,		/* of a file */
	FILES = 100,
	OBJECT = CHUNK - 4,	/* where an object begins: its handle is in the next piece */
	THREADS = 5,
};

static struct made_ring ring;
static int is_copied;
static u64 last;		/* the number that was taken last */
static u64 waiting[THREADS + 1];	/* by thread: its write that has not ended, or 0 */
static u64 random_state = 1;

static u32 one_of(u32 count)
{
	random_state = random_state * 6364136223846793005u + 1442695040888963407u;
	return (u32)(random_state >> 33) % count;
}

/* A frame with one record of such data, and where its bytes are. */
struct made_frame {
	u32 direction, thread, data, offsets;
	u64 number;
	u8 *bytes;
};

static struct made_frame make(u32 direction, u32 thread)
{
	static const u32 sizes[] = { 0, 8, 4095, 4096, CHUNK - 1, CHUNK, CHUNK + 1, 2 * CHUNK, 100000 };
	u32 data = sizes[one_of(sizeof sizes / sizeof *sizes)], has_object = data > CHUNK + 64 && one_of(2);
	struct made_frame made = { direction, thread, data, has_object ? sizeof(u64) : 0, ++last,
				   allocate(data + sizeof(u64)) };
	for (u32 i = 0; i < data; i++)
		made.bytes[i] = (u8)(made.number * 31 + i * 7 + (i >> 8));
	if (has_object) {
		struct flat_binder_object object = { .hdr.type = BINDER_TYPE_HANDLE, .handle = (u32)made.number };
		u64 offset = OBJECT;
		memcpy(made.bytes + OBJECT, &object, sizeof object);
		memcpy(made.bytes + data, &offset, sizeof offset);
	}
	return made;
}

static struct message head(const struct made_frame *made, u32 type)
{
	struct message head = head_of(type, made->direction, made->number, 1, made->thread);
	head.time = made->number;
	return head;
}

/* Its data and its offsets come in pieces, none with bytes of both if they are many. */
static void put_pieces(const struct made_frame *made, u32 from, u32 to)
{
	u32 both = made->data + made->offsets;
	for (u32 at = from, bytes; at < to && at < both; at += bytes) {
		bytes = (at < made->data ? made->data : both) - at;
		if (bytes > CHUNK)
			bytes = CHUNK;
		struct piece piece = { .head = head(made, MESSAGE_PIECE), .data = made->data,
				       .offsets = made->offsets, .at = at, .bytes = bytes };
		made_ring_put(&ring, &piece, sizeof piece, made->bytes + at, bytes);
	}
}

static void put(const void *message, u64 bytes)
{
	made_ring_put(&ring, message, bytes, NULL, 0);
}

static void put_commands(const struct made_frame *made)
{
	made_send(made->direction == DIRECTION_WRITE ? BC_TRANSACTION : BR_TRANSACTION, (struct binder_transaction_data){
		.flags = one_of(4) ? 0 : TF_CLEAR_BUF, .data_size = made->data, .offsets_size = made->offsets });
	made_begun(put, head(made, MESSAGE_CHUNK), NULL, 0);
}

/* What the ring had is overwritten, as the kernel does once its room was given back. */
static void look(void)
{
	u64 used = ring.put;
	if (is_copied) {
		ring_drain(&ring.ring, window_hear);
		ring.taken = ring.put = 0;
	}
	made_ring_take(&ring);
	memset(ring.bytes, 0xff, used);
}

static void end_write(u32 thread)
{
	if (waiting[thread])
		made_written(put, head_of(MESSAGE_WRITTEN, DIRECTION_WRITE, waiting[thread], 1, thread), RECORD);
	waiting[thread] = 0;
}

/* A read is whole at once, but its pieces may come before one look, and its commands after it. A write is whole when it
 * ends, mostly before the next look, and each frame of a higher number waits for it. */
static void play(u32 direction, u32 thread)
{
	end_write(thread);
	struct made_frame made = make(direction, thread);
	u32 both = made.data + made.offsets, half = one_of(8) ? both : CHUNK;
	if (direction == DIRECTION_WRITE)
		put_commands(&made);
	put_pieces(&made, 0, half);
	if (half < both) {
		look();
		put_pieces(&made, half, both);
	}
	if (direction == DIRECTION_READ)
		put_commands(&made);
	else
		waiting[thread] = made.number;
	if (one_of(4))
		end_write(thread);
	free(made.bytes);
}

/* In place of the one of the C library: mostly it writes only some of the bytes, of the first piece or of two. */
ssize_t writev(int file, const struct iovec *pieces, int count)
{
	static u32 calls;
	size_t first = pieces[0].iov_len;
	if (count == 1 || ++calls % 3)
		return write(file, pieces[0].iov_base, calls % 3 == 2 ? first : (first + 1) / 2);
	u8 *both = allocate(first + pieces[1].iov_len);
	memcpy(mempcpy(both, pieces[0].iov_base, first), pieces[1].iov_base, pieces[1].iov_len);
	ssize_t done = write(file, both, first + (pieces[1].iov_len + 1) / 2);
	free(both);
	return done;
}

/* In place of the one of the C library: the key is the same each time. */
ssize_t getrandom(void *to, size_t bytes, unsigned flags)
{
	(void)flags;
	memset(to, 'k', bytes);
	return (ssize_t)bytes;
}

int main(int count, char **words)
{
	if (count < 3 || parts_begin(words[1], SIZE, FILES))
		fail("usage: lent OUT RING|copied [redact]");
	is_copied = !strcmp(words[2], "copied");
	made_ring_begin(&ring, is_copied ? MOST_RING : strtoul(words[2], NULL, 10));
	redact_begin(count == 4);
	met_keep(SIZE);
	names_opening(1, 1, 0, 1000, 1, "caller\0\0\0\0\0\0\0\0\0", MET_FROM_START);
	for (u32 thread = 1; thread <= THREADS; thread++)
		made_thread(thread, 1000 + thread, 1000, "caller");
	for (int looks = 0; looks < LOOKS; looks++) {
		for (int i = 0; i < FRAMES; i++)
			play(one_of(2) ? DIRECTION_WRITE : DIRECTION_READ, 1 + one_of(THREADS));
		look();
	}
	for (u32 thread = 1; thread <= THREADS; thread++)
		end_write(thread);
	look();
	should(window_lost() == 0, "frames lost", (double)window_lost());
	should(window_frames() == last, "frames", (double)window_frames());
	should(parts_count() > 10, "files", parts_count());
	if (parts_end())
		fail("the files can't be written");
	return failed;
}
