#define _GNU_SOURCE
#include "redact.h"
#include "token.h"
#include <blake2.h>
#include <linux/android/binder.h>
#include <stddef.h>
#include <string.h>
#include <sys/random.h>

static int is_for_all;
static blake2s_state keyed;		/* has taken the key, and nothing else */

void redact_begin(int all)
{
	u8 key[BLAKE2S_KEYBYTES];
	is_for_all = all;
	if (getrandom(key, sizeof key, 0) != (ssize_t)sizeof key)
		fail("no random bytes for the key that redacts");
	if (blake2s_init_key(&keyed, BLAKE2S_OUTBYTES, key, sizeof key))
		fail("the hash that redacts could not be made");
	explicit_bzero(key, sizeof key);
}

void redact_end(void)
{
	explicit_bzero(&keyed, sizeof keyed);
}

/* The length of an object of this sort; 0 if there is no such sort. */
static u64 object_bytes(u32 sort)
{
	switch (sort) {
	case BINDER_TYPE_BINDER: case BINDER_TYPE_WEAK_BINDER: case BINDER_TYPE_HANDLE: case BINDER_TYPE_WEAK_HANDLE:
		return sizeof(struct flat_binder_object);
	case BINDER_TYPE_FD: return sizeof(struct binder_fd_object);
	case BINDER_TYPE_FDA: return sizeof(struct binder_fd_array_object);
	case BINDER_TYPE_PTR: return sizeof(struct binder_buffer_object);
	default: return 0;
	}
}

/* A walk over what is redacted of an entry: the gaps between what is kept. */
struct walk {
	struct entry *entry;
	u64 at;				/* up to here everything is taken or kept */
	void (*take)(struct walk *walk, u8 *bytes, u64 count);
	blake2s_state hash;
	u8 digest[BLAKE2S_OUTBYTES];	/* of all that is redacted */
	u8 stream[BLAKE2S_OUTBYTES];	/* made of the digest */
	u64 blocks, left;		/* how many blocks of the stream were made; bytes left of the last one */
};

static void take_until(struct walk *walk, u64 end)
{
	if (end > walk->at)
		walk->take(walk, walk->entry->bytes + walk->at, end - walk->at);
	walk->at = end > walk->at ? end : walk->at;
}

/* The rest of a body after its good objects. The word at a bad offset says what is wrong with it in the report: a sort
 * that is known stays, and one that is not known may not become known. */
static void take_rest(struct walk *walk, u64 bad)
{
	struct entry *entry = walk->entry;
	int has_word = bad % 4 == 0 && bad >= walk->at && bad < entry->data && entry->data - bad >= 4;
	int is_known = has_word && object_bytes(load_u32(entry->bytes + bad));
	if (is_known) {
		take_until(walk, bad);
		walk->at = bad + 4;
	}
	take_until(walk, entry->data);
	if (has_word && !is_known && object_bytes(load_u32(entry->bytes + bad)))
		entry->bytes[bad] ^= 1;
}

/* Takes all that is not in a good object. Which objects are good is as in the report. */
static void take_gaps(struct walk *walk, u64 token)
{
	struct entry *entry = walk->entry;
	u64 end = 0, offset = UINT64_MAX;
	walk->at = token;
	for (u32 i = 0; entry->offsets % 8 == 0 && i < entry->offsets; i += 8) {
		memcpy(&offset, entry->bytes + entry->data + i, sizeof offset);
		int is_there = offset % 4 == 0 && offset >= end && offset < entry->data && entry->data - offset >= 4;
		u64 bytes = is_there ? object_bytes(load_u32(entry->bytes + offset)) : 0;
		if (!bytes || bytes > entry->data - offset)
			break;
		take_until(walk, offset);
		end = offset + bytes;
		walk->at = end > walk->at ? end : walk->at;
		offset = UINT64_MAX;
	}
	take_rest(walk, offset);
}

static void add(blake2s_state *hash, const void *bytes, u64 count)
{
	blake2s_update(hash, bytes, count);
}

static void into_hash(struct walk *walk, u8 *bytes, u64 count)
{
	u64 where[2] = { walk->at, count };
	add(&walk->hash, where, sizeof where);
	add(&walk->hash, bytes, count);
}

/* The stream is the hashes of the digest and 0, 1, 2 and so on. */
static void next_block(struct walk *walk)
{
	blake2s_state hash = keyed;
	static const u8 purpose = 's';
	add(&hash, &purpose, 1);
	add(&hash, walk->digest, sizeof walk->digest);
	add(&hash, &walk->blocks, sizeof walk->blocks);
	blake2s_final(&hash, walk->stream, sizeof walk->stream);
	walk->blocks++;
	walk->left = sizeof walk->stream;
}

static void out_of_stream(struct walk *walk, u8 *bytes, u64 count)
{
	while (count) {
		if (!walk->left)
			next_block(walk);
		u64 now = count < walk->left ? count : walk->left;
		memcpy(bytes, walk->stream + sizeof walk->stream - walk->left, now);
		walk->left -= now;
		bytes += now;
		count -= now;
	}
}

/* The bytes of the token at the beginning of a transaction. A token with an object inside is none. */
static u64 kept_token(const struct frame *frame, const struct entry *entry)
{
	u32 word = load_u32(frame->commands + entry->record);
	u64 bytes, first;
	int is_reply = frame->direction == DIRECTION_WRITE ? word == BC_REPLY || word == BC_REPLY_SG : word == BR_REPLY;
	if (is_reply)
		return 0;
	bytes = token_bytes(entry->bytes, entry->data);
	if (entry->offsets < sizeof first)
		return bytes;
	memcpy(&first, entry->bytes + entry->data, sizeof first);
	return first < bytes ? 0 : bytes;
}

int redact_wants(const struct frame *frame, const struct entry *entry)
{
	u32 flags = load_u32(frame->commands + entry->record + 4 + offsetof(struct binder_transaction_data, flags));
	return is_for_all || flags & TF_CLEAR_BUF;
}

void redact(const struct frame *frame, struct entry *entry)
{
	static const u8 purpose = 'd';
	u64 token = kept_token(frame, entry);
	struct walk walk = { .entry = entry, .take = into_hash, .hash = keyed };
	add(&walk.hash, &purpose, 1);
	add(&walk.hash, &entry->data, sizeof entry->data);
	add(&walk.hash, entry->bytes, token);
	take_gaps(&walk, token);
	blake2s_final(&walk.hash, walk.digest, sizeof walk.digest);
	walk.take = out_of_stream;
	take_gaps(&walk, token);
	explicit_bzero(&walk, sizeof walk);
}
