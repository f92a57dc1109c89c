/* ring OUT MESSAGES SEED [lies|any] [FILES]: gives the recorder's loader messages of every kind, in every order, with every
 * length and lie, beside those of callers that are recorded as they should be; with FILES to a flight recorder. With `lies`
 * only what a caller can have a hand in is a lie: its own frames, and what is told of it. With `any` every message may be
 * one, but for the numbers of frames, which the programs in the kernel count: they are up to some thousands ahead.
 *
 * Compiled with FUZZED it takes its choices from libFuzzer, the words being OUT in the environment. See ring. */
#define _GNU_SOURCE
#include "frame.h"
#include "kit.h"
#include "live.h"
#include "made_frame.h"
#include "met.h"
#include "names.h"
#include "parts.h"
#include "played.h"
#include "redact.h"
#include "stacks.h"
#include "window.h"
#include <fcntl.h>
#include <sanitizer/asan_interface.h>
#include <stdlib.h>
#include <string.h>
#include <time.h>
#include <unistd.h>

enum {
	RING = 4 << 20,
	CALLERS = 8,
	LIARS = 2,			/* of these, the first ones */
	MOST_RECORDS_MADE = 700,
	MOST_MADE = 1 << 16,		/* bytes of commands */
	MOST_BEHIND = 16383,		/* bytes of data in the message of a small frame */
	SIZE = 1 << 24,			/* of a file */
	LOOK_AFTER = 1 << 18,		/* bytes in the ring */
	MOST_LOADER = 400,		/* MiB: 256 of frames that wait, the numbers that are not settled, and the pool */
};

/* Of sanitizer/allocator_interface.h, which gcc does not have. */
size_t __sanitizer_get_current_allocated_bytes(void);

/* ---- where choices come from */

static const u8 *script;		/* NULL: they are made up, by the state */
static size_t script_left;
static u64 state;

static u32 one_of(u32 count)
{
	if (!script) {
		state ^= state << 13;
		state ^= state >> 7;
		state ^= state << 17;
		return (u32)(state >> 32) % count;
	}
	u32 chosen = 0;
	for (u32 most = count - 1; most && script_left; most >>= 8, script_left--)
		chosen = chosen << 8 | *script++;
	return chosen % count;
}

/* Any number: often a small one, or one near to a bound. */
static u64 any_number(void)
{
	static const u64 odd[] = { 0, 1, 4, 8, 63, 64, 68, 72, CHUNK - 1, CHUNK, CHUNK + 1, MOST_AT_ONCE, MOST_COMMANDS, 1u << 31,
				   UINT32_MAX - 7, UINT32_MAX, 1ull << 32, 1ull << 63, UINT64_MAX - 3, UINT64_MAX };
	return one_of(3) ? one_of(300) : odd[one_of(sizeof odd / sizeof *odd)];
}

/* ---- what is played */

struct caller {
	u32 opening, thread;
	u64 waiting;			/* its write that the driver has not finished */
	u64 consumed;
};

static struct caller callers[CALLERS];
static struct made_ring ring;
static u64 last, messages;		/* the number that was taken last, and how many messages came */
static u64 told;			/* no message of a number up to this one is still to come, but of the end of writes */
static u32 last_opening, last_thread;
static int any_lies, fails;		/* fails: among what is read is that the driver refused a send */
static int may_be_refused;		/* a lie may be that the driver refused an honest send: its data is left out then */
static u64 most_memory;

static struct message head(u32 type, u32 direction, u64 number, const struct caller *caller)
{
	return head_of(type, direction, number, caller->opening, caller->thread);
}

/* Hands what is in the ring to the loader, as main.c does. */
static void look(void)
{
	made_ring_take(&ring);
	ASAN_POISON_MEMORY_REGION(ring.bytes, RING);
	window_silent_until(told);
	stacks_look();
	names_look();
	while (window_settle())
		continue;
	live_look();
	u64 memory = __sanitizer_get_current_allocated_bytes();
	most_memory = memory > most_memory ? memory : most_memory;
}

/* Puts a message into the ring. Nothing behind its last byte may be read. */
static void put(const void *message, u64 bytes, const void *more, u64 count)
{
	if (ring.put + bytes + count + 64 > LOOK_AFTER)
		look();
	u8 *to = ring.bytes + ring.put;
	ASAN_UNPOISON_MEMORY_REGION(to, 8 + bytes + count);
	made_ring_put(&ring, message, bytes, more, count);
	messages++;
}

static void put_event(u32 type, struct message head, u64 first, u64 second, u64 third)
{
	struct event event = { .head = head, .words = { first, second, third }, .name = "caller" };
	event.head.type = type;
	put(&event, type == MESSAGE_WRITTEN ? offsetof(struct event, written) + sizeof event.written : sizeof event, NULL, 0);
}

/* ---- frames */

struct made_record {
	u32 at, data, offsets;
	int carries, has_entry;
};

static struct made {
	u64 number;
	u32 direction, count, bytes;
	struct made_record records[MOST_RECORDS_MADE];
	u8 commands[MOST_MADE];
} made;

static u8 payload[MOST_AT_ONCE];

static void make_record(void)
{
	static const u32 words[][8] = {
		{ BC_TRANSACTION, BC_REPLY, BC_TRANSACTION_SG, BC_FREE_BUFFER, BC_ACQUIRE, BC_ENTER_LOOPER, 0x4018637f,
		  BC_REQUEST_DEATH_NOTIFICATION },
		{ BR_TRANSACTION, BR_REPLY, 0x80487202, BR_NOOP, BR_TRANSACTION_COMPLETE, BR_DEAD_BINDER, 0x8018727f, BR_ACQUIRE },
	};
	struct made_record *record = made.records + made.count++;
	u32 which = one_of(8), word = words[made.direction == DIRECTION_READ][which];
	if (word == BR_ACQUIRE && fails)
		word = BR_FAILED_REPLY;
	u32 bytes = _IOC_SIZE(word);
	struct binder_transaction_data data = { .target.handle = one_of(40), .flags = one_of(4) ? 0 : TF_ONE_WAY };
	*record = (struct made_record){ .at = made.bytes, .carries = which < 3 };
	if (which < 3 && one_of(4)) {
		record->data = one_of(200) ? one_of(64) : one_of(100000);
		record->offsets = 8 * one_of(3);
	}
	data.data_size = record->data;
	data.offsets_size = record->offsets;
	memcpy(made.commands + made.bytes, &word, sizeof word);
	memset(made.commands + made.bytes + sizeof word, (int)(last & 0xff), bytes);
	if (which < 3)
		memcpy(made.commands + made.bytes + sizeof word, &data, sizeof data);
	else if (bytes >= sizeof(u32))
		memcpy(made.commands + made.bytes + sizeof word, &data.target.handle, sizeof(u32));
	made.bytes += sizeof word + bytes;
}

static void make_frame(u32 direction)
{
	u32 count = one_of(300) ? 1 + one_of(4) : 1 + one_of(MOST_RECORDS_MADE);
	made.number = ++last;
	made.direction = direction;
	made.count = made.bytes = 0;
	while (made.count < count)
		make_record();
}

/* Its data and its offsets, in pieces of at most so many bytes; not all of them if there is a note why. */
static void put_pieces(const struct caller *caller, const struct made_record *record, u32 end)
{
	for (u32 at = 0, bytes; at < end; at += bytes) {
		bytes = end - at < CHUNK ? end - at : CHUNK;
		struct piece piece = { .head = head(MESSAGE_PIECE, made.direction, made.number, caller),
				       .record = record->at, .data = record->data, .offsets = record->offsets, .at = at,
				       .bytes = bytes };
		put(&piece, sizeof piece, payload + at, bytes);
	}
}

static void note(const struct caller *caller, const struct made_record *record, u32 reason)
{
	struct message of = head(MESSAGE_LATE, made.direction, made.number, caller);
	put_event(reason ? MESSAGE_UNATTACHED : MESSAGE_LATE, of, reason, record->at, 0);
}

/* What is told of the data of the records. */
static void put_data(const struct caller *caller)
{
	static const u32 reasons[] = { REASON_TOO_LARGE, REASON_UNREADABLE, REASON_RING_FULL, REASON_OTHER_MEMORY };
	for (u32 i = 0; i < made.count; i++) {
		struct made_record *record = made.records + i;
		u32 bytes = record->data + record->offsets, how = one_of(64);
		if (how == 0) {
			note(caller, record, REASON_TOO_MANY);
			return;
		}
		if (!record->carries || !bytes)
			continue;
		record->has_entry = how > 2;
		put_pieces(caller, record, record->has_entry ? bytes : one_of(bytes));
		if (!record->has_entry)
			note(caller, record, reasons[one_of(4)]);
		else if (how == 3)
			note(caller, record, REASON_NONE);
	}
}

static void put_chunk(const struct caller *caller, u32 base, u32 bytes, u32 next)
{
	struct chunk chunk = { .head = head(MESSAGE_CHUNK, made.direction, made.number, caller), .commands = bytes, .base = base,
			       .next = next, .late = !one_of(100) };
	put(&chunk, sizeof chunk, made.commands + base, bytes);
}

/* A chunk of a read has more bytes than its whole records; the next one begins after these. */
static void put_commands(const struct caller *caller)
{
	for (u32 base = 0, i = 0; base < made.bytes || !base;) {
		u32 left = made.bytes - base, bytes = left < CHUNK ? left : CHUNK, next = base + bytes;
		if (made.direction == DIRECTION_READ) {
			while (i < made.count && made.records[i].at <= base + bytes - 80)
				next = made.records[i++].at;
			next = left <= CHUNK ? 0 : next;
		}
		put_chunk(caller, base, bytes, next);
		if (!next || next >= made.bytes)
			return;
		base = next;
	}
}

/* Up to where the driver takes the commands, mostly all. */
static u32 consume(void)
{
	u32 end = one_of(20) ? made.count : one_of(made.count + 1);
	return end < made.count ? made.records[end].at : made.bytes;
}

static void expect(u64 consumed)
{
	struct due due = played_due(made.commands, consumed);
	for (u32 i = 0; i < made.count && made.records[i].at < consumed; i++) {
		const struct made_record *record = made.records + i;
		u32 entry[3] = { record->at, record->data, record->offsets };
		if (!record->has_entry)
			continue;
		played_add(&due, entry, sizeof entry);
		played_add(&due, payload, record->data + record->offsets);
		if (may_be_refused && record->data + record->offsets > 4096)
			played_taint(made.number);
	}
	played_expect(made.number, due);
}

static void end_write(struct caller *caller)
{
	struct message of = head(MESSAGE_WRITTEN, DIRECTION_WRITE, caller->waiting, caller);
	if (caller->waiting)
		put_event(MESSAGE_WRITTEN, of, caller->consumed, 0, 0);
	caller->waiting = 0;
}

/* A frame of a caller, as the programs in the kernel tell it. */
static void honest(struct caller *caller)
{
	end_write(caller);
	make_frame(one_of(2) ? DIRECTION_WRITE : DIRECTION_READ);
	if (made.direction == DIRECTION_READ) {
		put_data(caller);
		expect(made.bytes);
		put_commands(caller);
		return;
	}
	put_commands(caller);
	put_data(caller);
	caller->waiting = made.number;
	caller->consumed = consume();
	expect(caller->consumed);
	if (one_of(4))
		end_write(caller);
}

/* ---- lies */

/* A number of a frame. What a caller has a hand in is of its own frames. */
static u64 some_number(const struct caller *caller)
{
	u64 number = caller->waiting && one_of(2) ? caller->waiting : made.number;
	u64 near = last + one_of(3000);
	if (any_lies && !one_of(8))
		number = near > 1500 ? near - 1500 : near;
	played_taint(number);
	return number;
}

static struct message some_head(const struct caller *caller, u32 type)
{
	struct message some = head(type, one_of(16) ? made.direction : one_of(5), some_number(caller), caller);
	if (any_lies && !one_of(8))
		some.opening = one_of(2) ? one_of(last_opening + 4) : (u32)any_number();
	if (any_lies && !one_of(8))
		some.thread = one_of(2) ? one_of(last_thread + 4) : (u32)any_number();
	return some;
}

/* Any message, of any length. */
static void some_message(const struct caller *caller)
{
	static union {
		struct message head;
		u32 words[300];
		struct chunk chunk;
		struct piece piece;
		struct stack stack;
	} any;
	u32 type = one_of(MESSAGE_STACK + 3), longest = sizeof any;
	any.head = some_head(caller, type);
	for (u32 i = sizeof any.head / 4; i < sizeof any.head / 4 + 16; i++)
		any.words[i] = (u32)any_number();
	if (one_of(2) && type == MESSAGE_CHUNK)
		any.chunk.commands = one_of(longest);
	if (one_of(2) && type == MESSAGE_PIECE)
		any.piece.bytes = one_of(longest);
	put(&any, one_of(4) ? one_of(longest) : one_of(sizeof any.head + 64), NULL, 0);
}

/* What is told of the data is of any record, in any order, of any size. */
static void some_data(const struct caller *caller)
{
	for (u32 i = one_of(6); i; i--) {
		u32 at = one_of(2) ? made.records[one_of(made.count)].at : (u32)any_number();
		struct message of = some_head(caller, MESSAGE_PIECE);
		if (one_of(2)) {
			put_event(one_of(2) ? MESSAGE_UNATTACHED : MESSAGE_LATE, of, one_of(REASON_END + 3), at, 0);
			continue;
		}
		struct piece piece = { .head = of, .record = at, .data = (u32)any_number(), .offsets = (u32)any_number(),
				       .at = one_of(2) ? 0 : (u32)any_number(), .bytes = (u32)any_number() };
		if (one_of(2))
			piece.bytes = piece.data + piece.offsets;
		put(&piece, sizeof piece, payload, piece.bytes < 1000 ? piece.bytes : one_of(1000));
	}
}

/* A thread of the caller changes the commands while they are copied, or before the driver takes them. */
static void change_commands(void)
{
	for (u32 i = one_of(4); i; i--) {
		u32 word = one_of(2) ? made.records[one_of(made.count)].at : one_of(made.bytes);
		made.commands[word + one_of(4) < made.bytes ? word + one_of(4) % 4 : word] ^= (u8)(1 + one_of(255));
	}
}

/* A thread changes code words between the copy and the driver, and back: the copy has opaque records of the same sizes in
 * their place. All else is told as it is. */
static void race(struct caller *caller)
{
	for (u32 i = 0; i < made.count; i++)
		made.commands[made.records[i].at] |= one_of(2) ? 0x60 : 0;
	if (made.direction == DIRECTION_WRITE)
		put_commands(caller);
	put_data(caller);
	if (made.direction == DIRECTION_READ)
		put_commands(caller);
	caller->waiting = made.number;
	caller->consumed = consume();
}

/* A frame that is told in another way than it was. */
static void dishonest(struct caller *caller)
{
	if (one_of(4))
		end_write(caller);
	fails = 1;
	make_frame(one_of(2) ? DIRECTION_WRITE : DIRECTION_READ);
	fails = 0;
	played_taint(made.number);
	if (one_of(2)) {
		race(caller);
		return;
	}
	u32 steps = 1 + one_of(6);
	for (u32 i = 0; i < steps; i++)
		switch (one_of(8)) {
		case 0: case 1: change_commands(); break;
		case 2: case 3: put_commands(caller); break;
		case 4: some_data(caller); break;
		case 5: put_data(caller); break;
		case 6: put_chunk(caller, one_of(made.bytes), 0, (u32)any_number()); break;
		default: some_message(caller); break;
		}
	caller->waiting = made.number;
	caller->consumed = one_of(4) ? consume() : any_number();
}

/* ---- what threads and processes do beside calls */

static void meet(struct caller *caller)
{
	static const char *const names[] = { "caller", "a b\n", "\xc2\x85\xff\x1b[2J", "" };
	struct event event = { .opening = { .device = one_of(3), .process = 1000 + one_of(30), .start = 0,
					     .space = one_of(9) ? 0 : 77, .id_there = 5 } };
	*caller = (struct caller){ .opening = ++last_opening, .thread = ++last_thread };
	strncpy(event.name, names[one_of(4)], sizeof event.name);
	event.head = head(MESSAGE_OPENING, 0, last, caller);
	event.head.thread = one_of(2);
	put(&event, sizeof event, NULL, 0);
	put_event(MESSAGE_THREAD, head(0, 0, last, caller), (2000 + one_of(60)) | (one_of(2) ? 32ull : 64ull) << 32, 1000, 0);
}

static void part(struct caller *caller)
{
	end_write(caller);
	struct message of = head(0, 0, last, caller);
	if (one_of(2))
		put_event(MESSAGE_LEFT, of, 0, 0, 0);
	if (one_of(2))
		put_event(MESSAGE_ENDED, of, 1000, 1000, one_of(2));
	put_event(MESSAGE_CLOSED, of, 0, 0, 0);
	put_event(MESSAGE_ENDED, of, 1000, 1000, one_of(2));
	meet(caller);
}

static void say_command(const struct caller *caller)
{
	struct command command = { .head = head(MESSAGE_COMMAND, 0, last, caller), .user = 10123,
				   .bytes = one_of(3) ? one_of(300) : 0 };
	for (u32 i = 0; i < COMMAND_BYTES; i += 16)
		command.text[i] = (char)one_of(256);
	put(&command, sizeof command, NULL, 0);
}

static void say_stack(const struct caller *caller)
{
	struct stack stack = { .head = head(MESSAGE_STACK, DIRECTION_WRITE, caller->waiting, caller), .memory = one_of(50),
			       .process = 1000 + one_of(30), .count = 1 + one_of(MOST_OF_STACK) };
	for (u32 i = 0; i < stack.count; i++)
		stack.addresses[i] = (u64)one_of(64) << 12 | 8;
	put(&stack, offsetof(struct stack, addresses) + stack.count * sizeof *stack.addresses, NULL, 0);
}

static void act(void)
{
	u32 which = one_of(CALLERS), what = one_of(100);
	struct caller *caller = callers + which;
	if (what < 3)
		part(caller);
	else if (what < 5)
		say_command(caller);
	else if (what < 7 && caller->waiting)
		say_stack(caller);
	else if (what < 8)
		put_event(MESSAGE_NAME, head(0, 0, last, caller), 2000, 1000, 0);
	else if (what < 10)
		look();
	else if (which >= LIARS && !(any_lies && what < 30))
		honest(caller);
	else
		dishonest(caller);
	told = last;
}

/* ---- time goes on by itself, so that no machine is too slow; at times by much */

static u64 ahead;

int __real_clock_gettime(clockid_t clock, struct timespec *time);
int __wrap_clock_gettime(clockid_t clock, struct timespec *time)
{
	if (clock != CLOCK_MONOTONIC)
		return __real_clock_gettime(clock, time);
	ahead += 20000;
	*time = (struct timespec){ (time_t)(ahead / 1000000000u), (long)(ahead % 1000000000u) };
	return 0;
}

/* What --live counts is told to nobody. */
static void begin_live(void)
{
	char descriptor[16];
	snprintf(descriptor, sizeof descriptor, "%d", open("/dev/null", O_WRONLY));
	setenv("RECORD_LIVE", descriptor, 1);
	live_begin(&(struct options){ .live = 1 });
}

static void begin(const char *out, u32 files)
{
	if (parts_begin(out, SIZE, files))
		fail("%s can't be written", out);
	made_ring_begin(&ring, RING);
	ASAN_POISON_MEMORY_REGION(ring.bytes, RING);
	for (u32 i = 0; i < sizeof payload; i++)
		payload[i] = (u8)(i * 7);
	redact_begin(0);
	stacks_begin();
	if (files) {
		met_keep(SIZE);
		begin_live();
		window_bound_refused();
		may_be_refused = any_lies;
	}
	for (u32 i = 0; i < CALLERS; i++)
		meet(callers + i);
}

/* All that is under way ends. Returns 1 if something did not hold. */
static int end(const char *out, u32 files)
{
	for (u32 i = 0; i < CALLERS; i++)
		end_write(callers + i);
	look();
	window_stop(last, now());
	window_end();
	names_end();
	stacks_end();
	should(window_last() == last, "numbers that are not settled", (double)(last - window_last()));
	should(parts_end() == 0, "the files can't be written", 0);
	should(most_memory < (u64)MOST_LOADER << 20, "MiB of memory", (double)most_memory / (1 << 20));
	played_judge(out, parts_count(), files, last, !any_lies);
	return failed;
}

#ifndef FUZZED
int main(int count, char **words)
{
	if (count < 5)
		fail("usage: ring OUT MESSAGES SEED lies|any [FILES]");
	u64 most = strtoull(words[2], NULL, 10);
	u32 files = count > 5 ? (u32)strtoul(words[5], NULL, 10) : 0;
	state = strtoull(words[3], NULL, 10) * 0x9e3779b97f4a7c15u | 1;
	any_lies = !strcmp(words[4], "any");
	begin(words[1], files);
	while (messages < most)
		act();
	int status = end(words[1], files);
	printf("%llu messages, %llu frames, %llu lost, %llu broken, %llu MiB\n", (unsigned long long)messages,
	       (unsigned long long)window_frames(), (unsigned long long)window_lost(),
	       (unsigned long long)window_lost_because(REASON_BROKEN), (unsigned long long)most_memory >> 20);
	return status;
}
#else
static void end_fuzzed(void)
{
	if (end(getenv("OUT"), 0))
		_exit(1);
}

int LLVMFuzzerTestOneInput(const u8 *bytes, size_t count)
{
	if (!script) {
		any_lies = 1;
		begin(getenv("OUT"), 0);
		atexit(end_fuzzed);
	}
	script = bytes;
	script_left = count;
	while (script_left)
		act();
	script_left = 0;
	look();
	return 0;
}
#endif
