#include "codes.h"
#include "messages.h"

#define COUNT(array) (sizeof(array) / sizeof *(array))

/* A code word that docs/COMMANDS.md lists. The words are not those of linux/android/binder.h: the header of the machine
 * that builds may be older than the driver, and then lists fewer. In a table they are by number, from 0 on, and each
 * number has a word. After them come words that have a number too. */
struct listed {
	u32 word;
	int carries;	/* a transaction or a reply */
};

static const struct listed commands_listed[] = {
	{ 0x40406300, 1 }, /* BC_TRANSACTION */
	{ 0x40406301, 1 }, /* BC_REPLY */
	{ 0x40046302, 0 }, /* BC_ACQUIRE_RESULT */
	{ 0x40086303, 0 }, /* BC_FREE_BUFFER */
	{ 0x40046304, 0 }, /* BC_INCREFS */
	{ 0x40046305, 0 }, /* BC_ACQUIRE */
	{ 0x40046306, 0 }, /* BC_RELEASE */
	{ 0x40046307, 0 }, /* BC_DECREFS */
	{ 0x40106308, 0 }, /* BC_INCREFS_DONE */
	{ 0x40106309, 0 }, /* BC_ACQUIRE_DONE */
	{ 0x4008630a, 0 }, /* BC_ATTEMPT_ACQUIRE */
	{ 0x0000630b, 0 }, /* BC_REGISTER_LOOPER */
	{ 0x0000630c, 0 }, /* BC_ENTER_LOOPER */
	{ 0x0000630d, 0 }, /* BC_EXIT_LOOPER */
	{ 0x400c630e, 0 }, /* BC_REQUEST_DEATH_NOTIFICATION */
	{ 0x400c630f, 0 }, /* BC_CLEAR_DEATH_NOTIFICATION */
	{ 0x40086310, 0 }, /* BC_DEAD_BINDER_DONE */
	{ 0x40486311, 1 }, /* BC_TRANSACTION_SG */
	{ 0x40486312, 1 }, /* BC_REPLY_SG */
};

static const struct listed returns_listed[] = {
	{ 0x80047200, 0 }, /* BR_ERROR */
	{ 0x00007201, 0 }, /* BR_OK */
	{ 0x80407202, 1 }, /* BR_TRANSACTION */
	{ 0x80407203, 1 }, /* BR_REPLY */
	{ 0x80047204, 0 }, /* BR_ACQUIRE_RESULT */
	{ 0x00007205, 0 }, /* BR_DEAD_REPLY */
	{ 0x00007206, 0 }, /* BR_TRANSACTION_COMPLETE */
	{ 0x80107207, 0 }, /* BR_INCREFS */
	{ 0x80107208, 0 }, /* BR_ACQUIRE */
	{ 0x80107209, 0 }, /* BR_RELEASE */
	{ 0x8010720a, 0 }, /* BR_DECREFS */
	{ 0x8018720b, 0 }, /* BR_ATTEMPT_ACQUIRE */
	{ 0x0000720c, 0 }, /* BR_NOOP */
	{ 0x0000720d, 0 }, /* BR_SPAWN_LOOPER */
	{ 0x0000720e, 0 }, /* BR_FINISHED */
	{ 0x8008720f, 0 }, /* BR_DEAD_BINDER */
	{ 0x80087210, 0 }, /* BR_CLEAR_DEATH_NOTIFICATION_DONE */
	{ 0x00007211, 0 }, /* BR_FAILED_REPLY */
	{ 0x00007212, 0 }, /* BR_FROZEN_REPLY */
	{ 0x00007213, 0 }, /* BR_ONEWAY_SPAM_SUSPECT */
	{ 0x00007214, 0 }, /* BR_TRANSACTION_PENDING_FROZEN */
	{ 0x80487202, 1 }, /* BR_TRANSACTION_SEC_CTX */
};

/* A number that is listed must have a listed size; any other number may have any size. The table has so many numbers, and
 * so many rows. */
static enum word_is is_listed(const struct listed *table, u32 numbers, u32 rows, u32 word)
{
	u32 row = _IOC_NR(word);
	if (row >= numbers)
		return WORD_GOOD;
	if (table[row].word != word)
		for (row = numbers; row < rows && table[row].word != word; row++)
			continue;
	return row == rows ? WORD_BAD : table[row].carries ? WORD_CARRIES : WORD_GOOD;
}

enum word_is word_is(u32 word, u32 direction)
{
	int is_write = direction == DIRECTION_WRITE;
	u32 bits = _IOC_SIZE(word) == 0 ? _IOC_NONE : is_write ? _IOC_WRITE : _IOC_READ;
	if (_IOC_TYPE(word) != (is_write ? 'c' : 'r') || _IOC_DIR(word) != bits)
		return WORD_BAD;
	return is_write ? is_listed(commands_listed, COUNT(commands_listed), COUNT(commands_listed), word)
			: is_listed(returns_listed, COUNT(returns_listed) - 1, COUNT(returns_listed), word);
}

int returns_refuse(const u8 *commands, u64 bytes)
{
	struct record record;
	for (u64 at = 0; record_at(commands, bytes, at, &record); at = record.end)
		switch (_IOC_NR(record.word)) {
		case 0x06: case 0x13: case 0x14:	/* BR_TRANSACTION_COMPLETE, BR_ONEWAY_SPAM_SUSPECT, PENDING_FROZEN */
			return 0;
		case 0x05: case 0x11: case 0x12:	/* BR_DEAD_REPLY, BR_FAILED_REPLY, BR_FROZEN_REPLY */
			return 1;
		}
	return 0;
}

u64 records_with_data(const u8 *commands, u64 bytes, u64 at, u32 direction)
{
	struct record record;
	u64 count = 0;
	for (; record_at(commands, bytes, at, &record); at = record.end)
		if (word_is(record.word, direction) == WORD_CARRIES) {
			struct sizes sizes = record_sizes(&record);
			count += sizes.data || sizes.offsets;
		}
	return count;
}
