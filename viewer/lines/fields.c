/*
 * The fields of records and of objects: their names and where they are, as in linux/android/binder.h. The names of
 * numbers are those of numbers.sql, of which numbers.h is made.
 */
#include <string.h>

#include "lines.h"
#include "numbers.h"

#define COUNT(array) (sizeof(array) / sizeof *(array))
#define NAME(name) { " " name "=", sizeof " " name "=" - 1 }

/* In this order the columns of `--form tab` stand, and the fields of each record. The last two are in no column. */
enum { RESULT, ERROR, PRIORITY, TO_HANDLE, TO_PTR, TO_COOKIE, OF_ADDRESS, OF_CODE, OF_FLAGS, BY_PID, BY_EUID, OF_DATA,
       OF_OFFSETS, BUFFER, BUFFERS_SIZE, SECCTX, IS_FROZEN, AT_OFFSETS, RESERVED };

const struct name field_names[] = {
	NAME("result"), NAME("error"), NAME("priority"), NAME("handle"), NAME("ptr"), NAME("cookie"), NAME("address"),
	NAME("code"), NAME("flags"), NAME("sender_pid"), NAME("sender_euid"), NAME("data_size"), NAME("offsets_size"),
	NAME("buffer"), NAME("buffers_size"), NAME("secctx"), NAME("is_frozen"), NAME("offsets"), NAME("reserved"),
};

/* ---- records */

/* What transactions and replies share, and what they share that is shown only where they are whole. */
#define CARRIED_CODE { OF_CODE, 16, WORD, CODE }, { OF_FLAGS, 20, NAMED_FLAGS, FLAGS }
#define CARRIED_DATA { OF_DATA, 32, LONG, DATA_SIZE }, { OF_OFFSETS, 40, LONG, OFFSETS_SIZE }, \
	{ BUFFER, 48, HEXADECIMAL, ADDRESS }, { AT_OFFSETS, 56, HEXADECIMAL, -1 }
#define CARRIED_SENDER(pid, euid) { BY_PID, 24, SIGNED, pid }, { BY_EUID, 28, WORD, euid }
#define NODE_AT(at) { TO_PTR, at, HEXADECIMAL, PTR }, { TO_COOKIE, at + 8, HEXADECIMAL, COOKIE }
#define SIGNED_NUMBER(name) { name, 0, SIGNED, VALUE }

static const struct field sent[] = {
	{ TO_HANDLE, 0, WORD, HANDLE }, { TO_COOKIE, 8, HEXADECIMAL, -1 }, CARRIED_CODE, CARRIED_SENDER(-1, -1),
	CARRIED_DATA, { BUFFERS_SIZE, 64, LONG, EXTRA } };
static const struct field got[] = {
	NODE_AT(0), CARRIED_CODE, CARRIED_SENDER(SENDER_PID, SENDER_EUID), CARRIED_DATA,
	{ SECCTX, 64, HEXADECIMAL, EXTRA } };
static const struct field reply[] = {
	{ TO_PTR, 0, HEXADECIMAL, -1 }, { TO_COOKIE, 8, HEXADECIMAL, -1 }, CARRIED_CODE, CARRIED_SENDER(-1, -1),
	CARRIED_DATA, { BUFFERS_SIZE, 64, LONG, EXTRA } };
static const struct field result[] = { SIGNED_NUMBER(RESULT) };
static const struct field error[] = { SIGNED_NUMBER(ERROR) };
static const struct field buffer[] = { { OF_ADDRESS, 0, HEXADECIMAL, ADDRESS } };
static const struct field handle[] = { { TO_HANDLE, 0, WORD, HANDLE } };
static const struct field cookie[] = { { TO_COOKIE, 0, HEXADECIMAL, COOKIE } };
static const struct field node[] = { NODE_AT(0) };
static const struct field watch[] = { { TO_HANDLE, 0, WORD, HANDLE }, { TO_COOKIE, 4, HEXADECIMAL, COOKIE } };
static const struct field frozen[] = {
	{ TO_COOKIE, 0, HEXADECIMAL, COOKIE }, { IS_FROZEN, 8, WORD, VALUE }, { RESERVED, 12, WORD, -1 } };
static const struct field attempt[] = { SIGNED_NUMBER(PRIORITY), { TO_HANDLE, 4, WORD, HANDLE } };
static const struct field attempted[] = { SIGNED_NUMBER(PRIORITY), NODE_AT(8) };

/* Of the kinds that have a payload: its fields, and how many bytes it has. */
static const struct {
	const struct field *field;
	unsigned char fields, size;
} payloads[] = {
#define PAYLOAD(kind, fields, size) [kind] = { fields, COUNT(fields), size }
	PAYLOAD(BC_TRANSACTION, sent, 64), PAYLOAD(BC_TRANSACTION_SG, sent, 72),
	PAYLOAD(BC_REPLY, reply, 64), PAYLOAD(BC_REPLY_SG, reply, 72), PAYLOAD(BR_REPLY, reply, 64),
	PAYLOAD(BR_TRANSACTION, got, 64), PAYLOAD(BR_TRANSACTION_SEC_CTX, got, 72),
	PAYLOAD(BC_ACQUIRE_RESULT, result, 4), PAYLOAD(BR_ACQUIRE_RESULT, result, 4), PAYLOAD(BR_ERROR, error, 4),
	PAYLOAD(BC_FREE_BUFFER, buffer, 8),
	PAYLOAD(BC_INCREFS, handle, 4), PAYLOAD(BC_ACQUIRE, handle, 4), PAYLOAD(BC_RELEASE, handle, 4),
	PAYLOAD(BC_DECREFS, handle, 4),
	PAYLOAD(BC_DEAD_BINDER_DONE, cookie, 8), PAYLOAD(BR_DEAD_BINDER, cookie, 8),
	PAYLOAD(BR_CLEAR_DEATH_NOTIFICATION_DONE, cookie, 8), PAYLOAD(BC_FREEZE_NOTIFICATION_DONE, cookie, 8),
	PAYLOAD(BR_CLEAR_FREEZE_NOTIFICATION_DONE, cookie, 8),
	PAYLOAD(BC_INCREFS_DONE, node, 16), PAYLOAD(BC_ACQUIRE_DONE, node, 16), PAYLOAD(BR_INCREFS, node, 16),
	PAYLOAD(BR_ACQUIRE, node, 16), PAYLOAD(BR_RELEASE, node, 16), PAYLOAD(BR_DECREFS, node, 16),
	PAYLOAD(BC_REQUEST_DEATH_NOTIFICATION, watch, 12), PAYLOAD(BC_CLEAR_DEATH_NOTIFICATION, watch, 12),
	PAYLOAD(BC_REQUEST_FREEZE_NOTIFICATION, watch, 12), PAYLOAD(BC_CLEAR_FREEZE_NOTIFICATION, watch, 12),
	PAYLOAD(BC_ATTEMPT_ACQUIRE, attempt, 8), PAYLOAD(BR_ATTEMPT_ACQUIRE, attempted, 24),
	PAYLOAD(BR_FROZEN_BINDER, frozen, 16),
};

/* The parts of a code word, as the header's macros put them together, and the bit of a kind that is read. */
enum { OF_A_WRITE = 1, OF_A_READ = 2, WAY_BIT = 30, SIZE_BIT = 16, LETTER_BIT = 8, NUMBER = 255, READ_KINDS = 256 };

static struct kind kinds[COUNT(kind_names)];

bool is_opaque(uint64_t kind)
{
	return (kind & NUMBER) == NUMBER;
}

bool is_of_read(uint64_t kind)
{
	return kind >= READ_KINDS;
}

bool is_reply(uint64_t kind)
{
	return kind == BC_REPLY || kind == BC_REPLY_SG || kind == BR_REPLY;
}

size_t bytes_of_form(enum form form)
{
	return form == LONG || form == HEXADECIMAL ? 8 : 4;
}

static struct kind made_kind(uint64_t number)
{
	struct kind kind = { .name = kind_names[number], .due = (uint64_t)is_opaque(number) << VALUE };
	size_t size = 0;
	if (number < COUNT(payloads) && payloads[number].size) {
		size = payloads[number].size;
		kind.field = payloads[number].field;
		kind.fields = payloads[number].fields;
		while (kind.field[kind.fields - 1].at + bytes_of_form(kind.field[kind.fields - 1].form) > size)
			kind.fields--;
	}
	for (int at = 0; at < kind.fields; at++)
		kind.due |= kind.field[at].column < 0 ? 0 : (uint64_t)1 << kind.field[at].column;
	uint32_t way = !size ? 0 : is_of_read(number) ? OF_A_READ : OF_A_WRITE;
	kind.word = way << WAY_BIT | (uint32_t)size << SIZE_BIT | (is_of_read(number) ? 'r' : 'c') << LETTER_BIT
		| (uint32_t)(number & NUMBER);
	return kind;
}

const struct kind *kind_of(uint64_t number)
{
	if (number >= COUNT(kinds) || !kind_names[number])
		return NULL;
	if (!kinds[number].name)
		kinds[number] = made_kind(number);
	return &kinds[number];
}

uint32_t word_of(const struct row *record)
{
	uint64_t kind = record->column[KIND];
	return is_opaque(kind) ? (uint32_t)record->column[VALUE] : kind_of(kind)->word;
}

/* ---- objects */

const struct object_field object_fields[] = {
	{ NAME("object_flags"), WORD }, { NAME("binder"), HEXADECIMAL }, { NAME("handle"), WORD }, { NAME("fd"), WORD },
	{ NAME("cookie"), HEXADECIMAL }, { NAME("num_fds"), LONG }, { NAME("buffer"), HEXADECIMAL },
	{ NAME("length"), LONG }, { NAME("parent"), LONG }, { NAME("parent_offset"), LONG },
};

static const char *named(const struct number_name *names, size_t count, uint64_t number)
{
	for (size_t at = 0; at < count; at++)
		if (names[at].number == number)
			return names[at].name;
	return NULL;
}

const char *sort_named(uint64_t sort, uint64_t *due)
{
	static const uint64_t flags = 1 << 4, binder = 1 << 5, handles = 1 << 6, fd = 1 << 7, cookies = 1 << 8,
		num_fds = 1 << 9, buffers = 1 << 10, lengths = 1 << 11, parents = 3 << 12;
	*due = 0;
	switch (sort) {
	case BINDER: case WEAK_BINDER: *due = flags | binder | cookies; break;
	case OF_HANDLE: case WEAK_HANDLE: *due = flags | handles | cookies; break;
	case FD: *due = fd | cookies; break;
	case FDA: *due = num_fds | parents; break;
	case OF_PTR: *due = flags | buffers | lengths | parents; break;
	}
	return *due ? named(sort_names, COUNT(sort_names), sort) : NULL;
}

const char *cause_named(uint64_t cause)
{
	return named(cause_names, COUNT(cause_names), cause);
}

const char *fault_named(uint64_t fault)
{
	return fault && fault <= COUNT(fault_names) ? fault_names[fault - 1] : NULL;
}

/* ---- values */

uint64_t flag_named(const char *name)
{
	for (size_t at = 0; at < COUNT(flag_names); at++)
		if (!strcmp(flag_names[at].name, name))
			return flag_names[at].number;
	return 0;
}

/* The names of the flags of a word, with bars between them, and then the bits without a name; `-` if there is none. */
static void print_flags(uint64_t word)
{
	uint64_t unnamed = word;
	const char *mark = "";
	for (size_t at = 0; at < COUNT(flag_names); at++)
		if (word & flag_names[at].number) {
			print_word(mark);
			print_word(flag_names[at].name);
			mark = "|";
			unnamed &= ~flag_names[at].number;
		}
	if (unnamed) {
		print_word(mark);
		print_hexadecimal(unnamed);
	}
	if (!word)
		print_bytes("-", 1);
}

void print_value(enum form form, uint64_t value)
{
	switch (form) {
	case SIGNED: print_signed((int64_t)value); break;
	case HEXADECIMAL: print_hexadecimal(value); break;
	case NAMED_FLAGS: print_flags(value); break;
	default: print_decimal(value);
	}
}
