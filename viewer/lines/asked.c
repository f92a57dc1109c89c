/*
 * What is asked for: the options, whose words viewer/listing_words.py has read before, and which records that are. Where
 * an option is given several times, it is enough to fit one of its values.
 */
#include <stdlib.h>
#include <string.h>

#include "lines.h"

struct asked asked;

/* The options that narrow by a number. */
static const struct {
	const char *name;
	enum narrowing by;
} narrowings[] = {
	{ "--device", BY_DEVICE }, { "--process", BY_PROCESS }, { "--thread", BY_THREAD }, { "--from", BY_FROM },
	{ "--to", BY_TO }, { "--handle", BY_HANDLE }, { "--cookie", BY_COOKIE }, { "--node", BY_NODE },
	{ "--address", BY_ADDRESS }, { "--larger", BY_LARGER },
};

static const char *const places[] = { "--at", "--frame", "--call" };

static void stop_for_words(void)
{
	stop(FAILED, "listing: the printer of lines is called with other words than it takes");
}

/* ---- words */

static int digit_of(char sign)
{
	if (sign >= '0' && sign <= '9')
		return sign - '0';
	sign |= 'a' - 'A';
	return sign >= 'a' && sign <= 'f' ? sign - 'a' + 10 : 16;
}

/* Reads a number without a sign, in decimal, or in hexadecimal after `0x`. */
bool number_in(const char *begin, const char *end, uint64_t *number)
{
	bool is_prefixed = end - begin >= 2 && begin[0] == '0' && (begin[1] | 32) == 'x';
	int base = is_prefixed ? 16 : 10;
	begin += is_prefixed ? 2 : 0;
	*number = 0;
	if (begin == end)
		return false;
	for (; begin < end; begin++) {
		int digit = digit_of(*begin);
		if (digit >= base || __builtin_mul_overflow(*number, (uint64_t)base, number)
		    || __builtin_add_overflow(*number, (uint64_t)digit, number))
			return false;
	}
	return true;
}

static uint64_t number_of(const char *word)
{
	uint64_t number;
	if (!number_in(word, word + strlen(word), &number))
		stop_for_words();
	return number;
}

/* Makes room for one more of `count` things. */
static void *with_one_more(void *things, size_t count, size_t size)
{
	void *more = reallocarray(things, count + 1, size);
	if (!more)
		stop(NO_MEMORY, "fault Memory");
	return more;
}

static void add_number(struct numbers *numbers, uint64_t number)
{
	numbers->number = with_one_more(numbers->number, numbers->count, sizeof *numbers->number);
	numbers->number[numbers->count++] = number;
}

static void add_word(const char ***words, size_t *count, const char *word)
{
	*words = with_one_more(*words, *count, sizeof **words);
	(*words)[(*count)++] = word;
}

static void add_narrowing(enum narrowing by, uint64_t number)
{
	asked.narrows = true;
	add_number(&asked.by[by], number);
}

/* A code: the name of a record, or its code word. */
static void add_code(const char *value)
{
	uint64_t number;
	if (number_in(value, value + strlen(value), &number)) {
		add_narrowing(BY_WORD, number);
		return;
	}
	asked.narrows = true;
	add_word(&asked.kind, &asked.kinds, value);
}

static bool take_narrowing(const char *option, const char *value)
{
	for (size_t at = 0; at < sizeof narrowings / sizeof *narrowings; at++)
		if (!strcmp(option, narrowings[at].name)) {
			add_narrowing(narrowings[at].by, number_of(value));
			return true;
		}
	if (!strcmp(option, "--code"))
		add_code(value);
	else if (!strcmp(option, "--direction"))
		add_narrowing(BY_DIRECTION, !strcmp(value, "read"));
	else if (!strcmp(option, "--flag"))
		add_narrowing(BY_FLAG, flag_named(value));
	else if (!strcmp(option, "--interface"))
		add_word(&asked.interface, &asked.interfaces, value);
	else
		return false;
	return true;
}

static bool take_place(const char *option, const char *value)
{
	for (size_t at = 0; at < sizeof places / sizeof *places; at++)
		if (!strcmp(option, places[at])) {
			asked.place_of = option[2];
			add_number(&asked.places, number_of(value));
			return true;
		}
	return false;
}

static void take_option(const char *option, const char *value)
{
	if (take_narrowing(option, value) || take_place(option, value))
		return;
	if (!strcmp(option, "--form"))
		asked.form = TAB;
	else if (!strcmp(option, "--side"))
		asked.side = value;
	else if (!strcmp(option, "--methods"))
		asked.methods = value;
	else if (!strcmp(option, "--stream"))
		asked.stream = (int)number_of(value);
	else
		stop_for_words();
}

void take_options(int count, char **words)
{
	for (int at = 0; at < count; at++) {
		if (!strcmp(words[at], "--objects")) {
			asked.objects = true;
			continue;
		}
		if (!strcmp(words[at], "--names")) {
			asked.names = true;
			continue;
		}
		if (at + 1 == count)
			stop_for_words();
		take_option(words[at], words[at + 1]);
		at++;
	}
}

/* ---- records */

/* How what a record holds is compared with the number of an option. */
static bool is_same(uint64_t held, uint64_t number)
{
	return held == number;
}

static bool is_from(uint64_t held, uint64_t number)
{
	return held >= number;
}

static bool is_up_to(uint64_t held, uint64_t number)
{
	return held <= number;
}

static bool has_bits(uint64_t held, uint64_t number)
{
	return (held & number) != 0;
}

static bool is_larger(uint64_t held, uint64_t number)
{
	return held > number;
}

/* Whether what is held fits one of the numbers, if there are any. */
static bool fits(enum narrowing by, bool (*compare)(uint64_t, uint64_t), uint64_t held)
{
	const struct numbers *numbers = &asked.by[by];
	size_t at = 0;
	while (at < numbers->count && !compare(held, numbers->number[at]))
		at++;
	return !numbers->count || at < numbers->count;
}

static bool is_of_frame(const struct row *record, const struct thread *thread)
{
	return fits(BY_DEVICE, is_same, thread->device) && fits(BY_PROCESS, is_same, thread->process)
		&& fits(BY_THREAD, is_same, thread->number)
		&& fits(BY_DIRECTION, is_same, is_of_read(record->column[KIND]))
		&& fits(BY_FROM, is_from, record->column[SEQ]) && fits(BY_TO, is_up_to, record->column[SEQ]);
}

static bool has_code(const struct row *record)
{
	const char *name = kind_of(record->column[KIND])->name;
	if (!asked.kinds)
		return fits(BY_WORD, is_same, word_of(record));
	for (size_t at = 0; at < asked.kinds; at++)
		if (!strcmp(name, asked.kind[at]))
			return true;
	return asked.by[BY_WORD].count && fits(BY_WORD, is_same, word_of(record));
}

/* Only transactions and replies have flags and a size. */
static bool is_transaction_asked(const struct row *record)
{
	if (!asked.by[BY_FLAG].count && !asked.by[BY_LARGER].count)
		return true;
	return has(record, FLAGS) && fits(BY_FLAG, has_bits, record->column[FLAGS])
		&& fits(BY_LARGER, is_larger, record->column[DATA_SIZE]);
}

static bool is_interface_asked(const char *interface, size_t length)
{
	size_t at = 0;
	while (at < asked.interfaces && !(interface && strlen(asked.interface[at]) == length
					  && !memcmp(asked.interface[at], interface, length)))
		at++;
	return !asked.interfaces || at < asked.interfaces;
}

bool is_asked(const struct row *record, const struct thread *thread, const char *interface, size_t length)
{
	if (!is_interface_asked(interface, length))
		return false;
	return !asked.narrows || (is_of_frame(record, thread) && has_code(record) && is_transaction_asked(record));
}

/* ---- what a record or one of its objects names */

/* In which column a record has what is named, and an object. No object has an address. */
static const struct {
	enum narrowing by;
	int of_record, of_object;
} naming[] = {
	{ BY_HANDLE, HANDLE, OBJECT_HANDLE }, { BY_COOKIE, COOKIE, OBJECT_COOKIE }, { BY_NODE, PTR, OBJECT_BINDER },
	{ BY_ADDRESS, ADDRESS, -1 },
};
enum { NAMINGS = sizeof naming / sizeof *naming };

/* Whether a column is there and fits; the target of a reply means nothing, and no row has it. */
static bool names(const struct row *row, int column, enum narrowing by)
{
	return column >= 0 && has(row, column) && fits(by, is_same, row->column[column]);
}

unsigned left_of_record(const struct row *record)
{
	unsigned left = 0;
	for (int at = 0; asked.narrows && at < NAMINGS; at++)
		if (asked.by[naming[at].by].count && !names(record, naming[at].of_record, naming[at].by))
			left |= 1U << at;
	return left;
}

unsigned left_of_object(unsigned left, const struct row *object)
{
	for (int at = 0; at < NAMINGS; at++)
		if (left >> at & 1 && names(object, naming[at].of_object, naming[at].by))
			left &= ~(1U << at);
	return left;
}
