/* The records of command bytes, and which code words the driver knows; docs/COMMANDS.md lists them. */
#ifndef RECORDER_CODES_H
#define RECORDER_CODES_H
#include "common.h"
#include <linux/android/binder.h>
#include <string.h>

/* A record: a code word, and as many bytes of payload as that says. */
struct record {
	u32 word;
	const u8 *payload;
	u64 end;		/* where the next one begins */
};

/* Finds the record at this place of the commands. Returns 0 if no whole one is there. */
static inline int record_at(const u8 *commands, u64 bytes, u64 at, struct record *record)
{
	if (at > bytes || bytes - at < sizeof record->word)
		return 0;
	record->word = load_u32(commands + at);
	record->payload = commands + at + sizeof record->word;
	record->end = at + sizeof record->word + _IOC_SIZE(record->word);
	return record->end <= bytes;
}

/* What a code word is in a frame of a direction: none that may be there; or the word of a transaction or a reply. */
enum word_is { WORD_BAD, WORD_GOOD, WORD_CARRIES };

enum word_is word_is(u32 word, u32 direction);

/* How many bytes a transaction or a reply carries. */
struct sizes {
	u64 data, offsets;
};

/* Those of a record whose word is of a transaction or a reply. */
static inline struct sizes record_sizes(const struct record *record)
{
	struct binder_transaction_data data;
	memcpy(&data, record->payload, sizeof data);
	return (struct sizes){ data.data_size, data.offsets_size };
}

/* Whether the returns say that the driver refused what the thread sent: the first of them that tells what came of a send
 * is an error. */
int returns_refuse(const u8 *commands, u64 bytes);
/* How many of the records from this place on are transactions or replies with data. */
u64 records_with_data(const u8 *commands, u64 bytes, u64 at, u32 direction);
#endif
