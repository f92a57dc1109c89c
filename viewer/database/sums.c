/*
 * Sums over all sends, deliveries and calls of packed tables, as virtual tables. Each has the rows, in the same order,
 * of the view of its name in viewer/rules/sums.sql, which says what they are. SQLite takes some microseconds for each
 * send, most of them for rows that it looks up one by one and for sorting; here each takes a tenth of that.
 *
 *     CREATE VIRTUAL TABLE NAME USING sums('DATABASE')
 *
 * The packed tables are the files DATABASE.TABLE. Of a sum SQLite gets all rows, by columns that rise in their order.
 */
#define _GNU_SOURCE	/* qsort_r */
#include <stdlib.h>
#include <string.h>

#include "packed_rows.h"

enum { MOST_FIELDS = 24, FIRST_ROOM = 1024 };

/* The number of BR_REPLY, and the flag TF_ONE_WAY. */
enum { BR_REPLY = 259, ONE_WAY = 1 };

/* The numbers of columns, by the tables of schema.sql. */
enum { RECORD_UTID = 2, RECORD_KIND, RECORD_HANDLE, RECORD_PTR, RECORD_COOKIE, RECORD_CODE = 8, RECORD_FLAGS,
       RECORD_DATA_SIZE = 12, RECORD_INTERFACE = 19 };
enum { CALL_SEQ = 1, CALL_UTID, CALL_SERVED, CALL_VERDICT = 6, CALL_CLOSER, CALL_DUR_SEQ };
enum { SEND_SEQ = 1, SEND_GENERATION = 3, SEND_REFUSED = 5, SEND_DELIVERY, SEND_CERTAIN, SEND_FITS };
enum { DELIVERY_SEQ = 1, DELIVERY_UTID, DELIVERY_FREED_BY, DELIVERY_DUR_SEQ, DELIVERY_CALL, DELIVERY_HELD = 7 };
enum { TIME_TS = 1 };

/* The verdicts of calls. */
enum { OPEN, ANSWERED, REPLIED, FAILED };

/* ---- groups */

/* The fields of a group: first those that tell groups apart. `there` has a bit for each that is not NULL. */
struct group {
	uint64_t there;
	int64_t field[];
};

/* The groups of a sum, one after another, and a table in which a group is looked for: its number, from 1. */
struct groups {
	int keys, fields;
	size_t size, count, room, places;
	char *group;
	uint32_t *place;
};

static struct group *group_at(const struct groups *groups, size_t number)
{
	return (struct group *)(groups->group + number * groups->size);
}

static uint64_t mixed(const struct groups *groups, const struct group *group)
{
	uint64_t mix = group->there & (((uint64_t)1 << groups->keys) - 1);
	for (int key = 0; key < groups->keys; key++) {
		mix = (mix ^ (uint64_t)group->field[key]) * 0x9e3779b97f4a7c15;
		mix ^= mix >> 32;
	}
	return mix;
}

static int are_alike(const struct groups *groups, const struct group *one, const struct group *other)
{
	uint64_t keys = ((uint64_t)1 << groups->keys) - 1;
	return (one->there & keys) == (other->there & keys)
	       && !memcmp(one->field, other->field, (size_t)groups->keys * sizeof *one->field);
}

/* The place in the table where a group is, or may be put. */
static uint32_t *place_of(const struct groups *groups, const struct group *group)
{
	size_t at = mixed(groups, group) & (groups->places - 1);
	while (groups->place[at] && !are_alike(groups, group_at(groups, groups->place[at] - 1), group))
		at = (at + 1) & (groups->places - 1);
	return &groups->place[at];
}

static int make_room(struct groups *groups)
{
	if (groups->count == UINT32_MAX / 4)
		return SQLITE_FULL;
	size_t room = groups->room ? 2 * groups->room : FIRST_ROOM;
	char *more = realloc(groups->group, room * groups->size);
	if (!more)
		return SQLITE_NOMEM;
	groups->group = more;
	groups->room = room;
	free(groups->place);
	groups->places = 2 * room;
	groups->place = calloc(groups->places, sizeof *groups->place);
	if (!groups->place)
		return SQLITE_NOMEM;
	for (size_t number = 0; number < groups->count; number++)
		*place_of(groups, group_at(groups, number)) = (uint32_t)number + 1;
	return SQLITE_OK;
}

/* The group with these keys. A new one has NULL in all other fields. NULL: no memory. */
static struct group *group_of(struct groups *groups, const struct group *keys)
{
	if (groups->count == groups->room && make_room(groups))
		return NULL;
	uint32_t *place = place_of(groups, keys);
	if (!*place) {
		memcpy(group_at(groups, groups->count), keys, groups->size);
		*place = (uint32_t)++groups->count;
	}
	return group_at(groups, *place - 1);
}

/* NULL comes before all numbers, as SQLite sorts. */
static int in_order(const void *first, const void *second, void *of)
{
	const struct groups *groups = of;
	const struct group *one = first, *other = second;
	for (int key = 0; key < groups->keys; key++) {
		int is_one = one->there >> key & 1, is_other = other->there >> key & 1;
		if (is_one != is_other)
			return is_one - is_other;
		if (one->field[key] != other->field[key])
			return one->field[key] < other->field[key] ? -1 : 1;
	}
	return 0;
}

static void set(struct group *group, int field, int64_t value)
{
	group->there |= (uint64_t)1 << field;
	group->field[field] = value;
}

static void add(struct group *group, int field, int64_t value)
{
	set(group, field, group->field[field] + value);
}

static void set_most(struct group *group, int field, int64_t value)
{
	if (!(group->there >> field & 1) || value > group->field[field])
		set(group, field, value);
}

/* ---- what is read */

enum { SENDS, CALLS, DELIVERIES, RECORDS, TIMES, FILES };

static const char *const FILE_NAME[FILES] = { "raw_send", "raw_call", "raw_delivery", "raw_record", "side_time" };

/* The packed tables, and the process of each thread. Without a side list there are no times. */
struct tables {
	struct packed_file file[FILES];
	size_t threads;
	int64_t *upid;		/* by utid */
};

/* A sum at work: what it reads and makes, and what went wrong. */
struct work {
	struct tables *tables;
	struct groups *groups;
	int status;
};

static int has(const struct packed_cursor *cursor, int column)
{
	return cursor->mask >> column & 1;
}

static struct packed_cursor cursor_in(const struct work *work, int file)
{
	return (struct packed_cursor){ .file = &work->tables->file[file] };
}

/* Takes the columns up to `last` of the row with this key. Returns whether there is one. */
static int look_up(struct work *work, struct packed_cursor *cursor, int64_t key, int last)
{
	int is_there = 0;
	if (work->status == SQLITE_OK)
		work->status = packed_find(cursor, key, &is_there);
	if (work->status == SQLITE_OK && is_there)
		work->status = packed_take_columns(cursor, last);
	return work->status == SQLITE_OK && is_there;
}

/* Goes to the first row, or to the next one, and takes its columns up to `last`. Returns whether there is one. */
static int go_on(struct work *work, struct packed_cursor *cursor, int last)
{
	int is_there = cursor->file->blocks > 0;
	if (work->status == SQLITE_OK && is_there)
		work->status = cursor->block_end ? packed_go_up(cursor, &is_there) : packed_go_to_number(cursor, 0);
	if (work->status == SQLITE_OK && is_there)
		work->status = packed_take_columns(cursor, last);
	return work->status == SQLITE_OK && is_there;
}

/* How long it was from one frame to another. Returns whether both have a time. */
static int time_between(struct work *work, struct packed_cursor *from, struct packed_cursor *to, int64_t first,
			int64_t second, int64_t *time)
{
	if (!look_up(work, from, first, TIME_TS) || !look_up(work, to, second, TIME_TS))
		return 0;
	*time = to->values[TIME_TS] - from->values[TIME_TS];
	return 1;
}

/* How long it was from a time, if that is known, to a frame. Returns whether both are known. */
static int time_since(struct work *work, const int64_t *begin, struct packed_cursor *to, int64_t seq, int64_t *time)
{
	if (!begin || !look_up(work, to, seq, TIME_TS))
		return 0;
	*time = to->values[TIME_TS] - *begin;
	return 1;
}

static int64_t process_of(const struct work *work, int64_t utid)
{
	return utid > 0 && (size_t)utid <= work->tables->threads ? work->tables->upid[utid] : 0;
}

/* Adds a key to those of a group, if it is there. */
static void set_key(struct group *keys, int field, const struct packed_cursor *cursor, int column)
{
	if (has(cursor, column))
		set(keys, field, cursor->values[column]);
}

static struct group *found(struct work *work, const struct group *keys)
{
	struct group *group = group_of(work->groups, keys);
	if (!group)
		work->status = SQLITE_NOMEM;
	return group;
}

/* Keys for a group, with room for all its fields. */
union keys {
	struct group group;
	char room[sizeof(struct group) + MOST_FIELDS * sizeof(int64_t)];
};

/* ---- the sums */

enum { PEER_GENERATION, PEER_UPID, PEER_PTR, PEER_COOKIE, PEER_KEYS, PEER_DELIVERIES = PEER_KEYS, PEER_CERTAIN,
       PEER_FIELDS };

static void sum_peers(struct work *work)
{
	struct packed_cursor send = cursor_in(work, SENDS), record = cursor_in(work, RECORDS);
	while (go_on(work, &send, SEND_CERTAIN)) {
		if (!has(&send, SEND_GENERATION) || !has(&send, SEND_DELIVERY)
		    || !look_up(work, &record, send.values[SEND_DELIVERY], RECORD_COOKIE))
			continue;
		union keys keys = { 0 };
		set(&keys.group, PEER_GENERATION, send.values[SEND_GENERATION]);
		set(&keys.group, PEER_UPID, process_of(work, record.values[RECORD_UTID]));
		set_key(&keys.group, PEER_PTR, &record, RECORD_PTR);
		set_key(&keys.group, PEER_COOKIE, &record, RECORD_COOKIE);
		struct group *group = found(work, &keys.group);
		if (!group)
			return;
		add(group, PEER_DELIVERIES, 1);
		if (has(&send, SEND_CERTAIN))
			add(group, PEER_CERTAIN, send.values[SEND_CERTAIN]);
	}
}

enum { SENT_GENERATION, SENT_CODE, SENT_ONEWAY, SENT_KEYS, SENT_SENDS = SENT_KEYS, SENT_FAILED, SENT_REFUSED, SENT_OPEN,
       SENT_BYTES, SENT_DELIVERED, SENT_ONE_FITS, SENT_BUFFERS, SENT_PEAK, SENT_LONGEST_SEQ, SENT_LONGEST, SENT_GOOD,
       SENT_GOOD_SEQ, SENT_GOOD_TIME, SENT_WAITED, SENT_HANDLED, SENT_ANSWER, SENT_FIELDS };

/* Adds the delivery of a send, if there is one. Returns whether it is there. */
static int add_delivery(struct work *work, struct group *group, const struct packed_cursor *send,
			 struct packed_cursor *delivery)
{
	int is_delivered = has(send, SEND_DELIVERY);
	int is_there = is_delivered && look_up(work, delivery, send->values[SEND_DELIVERY], DELIVERY_HELD);
	add(group, SENT_DELIVERED, is_delivered);
	add(group, SENT_ONE_FITS, has(send, SEND_CERTAIN) && has(send, SEND_FITS) && send->values[SEND_CERTAIN]
				  && send->values[SEND_FITS] == 1);
	add(group, SENT_BUFFERS, is_delivered && !(is_there && has(delivery, DELIVERY_FREED_BY)));
	if (is_there)
		set_most(group, SENT_PEAK, delivery->values[DELIVERY_HELD]);
	return is_there;
}

/* Sets how many frames it was at most, and how long, if that is known. */
static void set_longest(struct group *group, int of_frames, int of_time, int64_t frames, const int64_t *time)
{
	set_most(group, of_frames, frames);
	if (time)
		set_most(group, of_time, *time);
}

/* The total of sizes is a real number, which stands in its field. */
static void add_bytes(struct group *group, int64_t size)
{
	double total = 0;
	memcpy(&total, &group->field[SENT_BYTES], sizeof total);
	total += (double)size;
	memcpy(&group->field[SENT_BYTES], &total, sizeof total);
	group->there |= (uint64_t)1 << SENT_BYTES;
}

/* Adds how long a call took that was sent at this time, and its answer, if it is closed. Returns whether it was
   answered. */
static int add_end(struct work *work, struct group *group, const struct packed_cursor *call, const int64_t *sent,
		   struct packed_cursor *ended)
{
	if (!has(call, CALL_DUR_SEQ))
		return 0;
	int64_t time, lasted = call->values[CALL_DUR_SEQ];
	int is_answered = call->values[CALL_VERDICT] == ANSWERED;
	int is_timed = time_since(work, sent, ended, call->values[CALL_SEQ] + lasted, &time);
	set_longest(group, SENT_LONGEST_SEQ, SENT_LONGEST, lasted, is_timed ? &time : NULL);
	if (is_answered) {
		set_longest(group, SENT_GOOD_SEQ, SENT_GOOD_TIME, lasted, is_timed ? &time : NULL);
		set_most(group, SENT_ANSWER, call->values[CALL_CLOSER]);
	}
	return is_answered;
}

/* Adds how long a delivery was waited for, so many frames. Returns whether that is all, as of a oneway send. */
static int add_wait(struct work *work, struct group *group, int64_t frames, int is_oneway, const int64_t *sent,
		    const struct packed_cursor *delivery, struct packed_cursor *came)
{
	int64_t time;
	int is_timed = time_since(work, sent, came, delivery->values[DELIVERY_SEQ], &time);
	if (is_timed)
		set_most(group, SENT_WAITED, time);
	if (is_oneway)
		set_longest(group, SENT_GOOD_SEQ, SENT_GOOD_TIME, frames, is_timed ? &time : NULL);
	return is_oneway;
}

/* Adds how long the buffer of a oneway send was held, if it was freed and both times are known. */
static void add_handled(struct work *work, struct group *group, const struct packed_cursor *delivery,
			struct packed_cursor *came, struct packed_cursor *freed)
{
	int64_t time, seq = delivery->values[DELIVERY_SEQ];
	if (has(delivery, DELIVERY_DUR_SEQ)
	    && time_between(work, came, freed, seq, seq + delivery->values[DELIVERY_DUR_SEQ], &time))
		set_most(group, SENT_HANDLED, time);
}

static void sum_sent(struct work *work)
{
	struct packed_cursor send = cursor_in(work, SENDS), record = cursor_in(work, RECORDS), call = cursor_in(work, CALLS),
			     delivery = cursor_in(work, DELIVERIES), begun = cursor_in(work, TIMES),
			     came = cursor_in(work, TIMES), ended = cursor_in(work, TIMES),
			     freed = cursor_in(work, TIMES);
	while (go_on(work, &send, SEND_FITS)) {
		if (!has(&send, SEND_GENERATION) || !look_up(work, &record, send.values[0], RECORD_DATA_SIZE))
			continue;
		union keys keys = { 0 };
		int is_oneway = record.values[RECORD_FLAGS] & ONE_WAY;
		set(&keys.group, SENT_GENERATION, send.values[SEND_GENERATION]);
		set_key(&keys.group, SENT_CODE, &record, RECORD_CODE);
		set(&keys.group, SENT_ONEWAY, is_oneway);
		struct group *group = found(work, &keys.group);
		if (!group)
			return;
		int is_call = look_up(work, &call, send.values[0], CALL_DUR_SEQ), is_refused = has(&send, SEND_REFUSED);
		int64_t verdict = is_call ? call.values[CALL_VERDICT] : -1;
		add(group, SENT_SENDS, 1);
		add(group, SENT_FAILED, verdict == FAILED || is_refused);
		add(group, SENT_REFUSED, is_refused);
		add(group, SENT_OPEN, verdict == OPEN);
		add_bytes(group, record.values[RECORD_DATA_SIZE]);
		int has_come = add_delivery(work, group, &send, &delivery);
		const int64_t *sent = look_up(work, &begun, send.values[SEND_SEQ], TIME_TS) ? &begun.values[TIME_TS] : NULL;
		int is_good = is_call && add_end(work, group, &call, sent, &ended);
		if (has_come)
			is_good |= add_wait(work, group, delivery.values[DELIVERY_SEQ] - send.values[SEND_SEQ], is_oneway, sent,
					    &delivery, &came);
		if (has_come && is_oneway)
			add_handled(work, group, &delivery, &came, &freed);
		add(group, SENT_GOOD, is_good);
	}
}

enum { CAME_REPLY, CAME_ONEWAY, CAME_CODE, CAME_GENERATION, CAME_HANDLE, CAME_RECEIVER, CAME_PTR, CAME_COOKIE, CAME_KEYS,
       CAME_N = CAME_KEYS, CAME_GOOD, CAME_LONGEST_SEQ, CAME_LONGEST, CAME_FIELDS };

/* A reply is told apart by the call that it answers, and what else came by the object that it came to. */
static void set_keys_of_came(struct work *work, struct group *keys, const struct packed_cursor *delivery,
			     const struct packed_cursor *record, struct packed_cursor *call, struct packed_cursor *send)
{
	int is_reply = record->values[RECORD_KIND] == BR_REPLY;
	set(keys, CAME_REPLY, is_reply);
	set(keys, CAME_ONEWAY, record->values[RECORD_FLAGS] & ONE_WAY);
	set(keys, CAME_RECEIVER, process_of(work, delivery->values[DELIVERY_UTID]));
	if (!is_reply) {
		set_key(keys, CAME_CODE, record, RECORD_CODE);
		set_key(keys, CAME_PTR, record, RECORD_PTR);
		set_key(keys, CAME_COOKIE, record, RECORD_COOKIE);
	} else if (has(delivery, DELIVERY_CALL)) {
		int64_t place = delivery->values[DELIVERY_CALL];
		if (look_up(work, call, place, RECORD_CODE)) {
			set_key(keys, CAME_CODE, call, RECORD_CODE);
			set_key(keys, CAME_HANDLE, call, RECORD_HANDLE);
		}
		if (look_up(work, send, place, SEND_GENERATION))
			set_key(keys, CAME_GENERATION, send, SEND_GENERATION);
	}
}

static void sum_came(struct work *work)
{
	struct packed_cursor delivery = cursor_in(work, DELIVERIES), record = cursor_in(work, RECORDS),
			     call = cursor_in(work, RECORDS), send = cursor_in(work, SENDS), from = cursor_in(work, TIMES),
			     to = cursor_in(work, TIMES);
	while (go_on(work, &delivery, DELIVERY_CALL)) {
		if (!look_up(work, &record, delivery.values[0], RECORD_FLAGS))
			continue;
		union keys keys = { 0 };
		set_keys_of_came(work, &keys.group, &delivery, &record, &call, &send);
		struct group *group = found(work, &keys.group);
		if (!group)
			return;
		add(group, CAME_N, 1);
		add(group, CAME_GOOD, has(&delivery, DELIVERY_FREED_BY));
		if (!has(&delivery, DELIVERY_DUR_SEQ))
			continue;
		int64_t seq = delivery.values[DELIVERY_SEQ], lasted = delivery.values[DELIVERY_DUR_SEQ], time;
		set_most(group, CAME_LONGEST_SEQ, lasted);
		if (time_between(work, &from, &to, seq, seq + lasted, &time))
			set_most(group, CAME_LONGEST, time);
	}
}

enum { SERVED_CODE, SERVED_UPID, SERVED_PTR, SERVED_COOKIE, SERVED_KEYS, SERVED_N = SERVED_KEYS, SERVED_GOOD,
       SERVED_LONGEST_SEQ, SERVED_LONGEST, SERVED_FIELDS };

static void sum_served(struct work *work)
{
	struct packed_cursor call = cursor_in(work, CALLS), record = cursor_in(work, RECORDS), from = cursor_in(work, TIMES),
			     to = cursor_in(work, TIMES);
	while (go_on(work, &call, CALL_DUR_SEQ)) {
		if (!call.values[CALL_SERVED] || !look_up(work, &record, call.values[0], RECORD_CODE))
			continue;
		union keys keys = { 0 };
		set_key(&keys.group, SERVED_CODE, &record, RECORD_CODE);
		set(&keys.group, SERVED_UPID, process_of(work, call.values[CALL_UTID]));
		set_key(&keys.group, SERVED_PTR, &record, RECORD_PTR);
		set_key(&keys.group, SERVED_COOKIE, &record, RECORD_COOKIE);
		struct group *group = found(work, &keys.group);
		if (!group)
			return;
		int is_replied = call.values[CALL_VERDICT] == REPLIED;
		add(group, SERVED_N, 1);
		add(group, SERVED_GOOD, is_replied);
		if (!is_replied || !has(&call, CALL_DUR_SEQ))
			continue;
		int64_t seq = call.values[CALL_SEQ], lasted = call.values[CALL_DUR_SEQ], time;
		set_most(group, SERVED_LONGEST_SEQ, lasted);
		if (time_between(work, &from, &to, seq, seq + lasted, &time))
			set_most(group, SERVED_LONGEST, time);
	}
}

enum { CAME_NAME_CODE, CAME_NAME_UPID, CAME_NAME_PTR, CAME_NAME_INTERFACE, CAME_NAME_KEYS, CAME_NAME_N = CAME_NAME_KEYS,
       CAME_NAME_FIELDS };

static void sum_came_names(struct work *work)
{
	struct packed_cursor delivery = cursor_in(work, DELIVERIES), record = cursor_in(work, RECORDS);
	while (go_on(work, &delivery, DELIVERY_UTID)) {
		if (!look_up(work, &record, delivery.values[0], RECORD_INTERFACE) || !has(&record, RECORD_INTERFACE)
		    || record.values[RECORD_KIND] == BR_REPLY)
			continue;
		union keys keys = { 0 };
		set_key(&keys.group, CAME_NAME_CODE, &record, RECORD_CODE);
		set(&keys.group, CAME_NAME_UPID, process_of(work, delivery.values[DELIVERY_UTID]));
		set_key(&keys.group, CAME_NAME_PTR, &record, RECORD_PTR);
		set_key(&keys.group, CAME_NAME_INTERFACE, &record, RECORD_INTERFACE);
		struct group *group = found(work, &keys.group);
		if (!group)
			return;
		add(group, CAME_NAME_N, 1);
	}
}

enum { SENT_NAME_GENERATION, SENT_NAME_CODE, SENT_NAME_INTERFACE, SENT_NAME_KEYS, SENT_NAME_N = SENT_NAME_KEYS,
       SENT_NAME_FIELDS };

static void sum_sent_names(struct work *work)
{
	struct packed_cursor send = cursor_in(work, SENDS), record = cursor_in(work, RECORDS);
	while (go_on(work, &send, SEND_GENERATION)) {
		if (!has(&send, SEND_GENERATION) || !look_up(work, &record, send.values[0], RECORD_INTERFACE)
		    || !has(&record, RECORD_INTERFACE))
			continue;
		union keys keys = { 0 };
		set(&keys.group, SENT_NAME_GENERATION, send.values[SEND_GENERATION]);
		set_key(&keys.group, SENT_NAME_CODE, &record, RECORD_CODE);
		set_key(&keys.group, SENT_NAME_INTERFACE, &record, RECORD_INTERFACE);
		struct group *group = found(work, &keys.group);
		if (!group)
			return;
		add(group, SENT_NAME_N, 1);
	}
}

enum { AGAIN_GENERATION, AGAIN_CODE, AGAIN_DATA_SIZE, AGAIN_KEYS, AGAIN_N = AGAIN_KEYS, AGAIN_PLACE, AGAIN_FIRST,
       AGAIN_LAST, AGAIN_LEAST, AGAIN_MOST, AGAIN_FIELDS };

/* Adds a call at a time: what was between it and the one before it. */
static void add_time(struct group *group, int64_t ts)
{
	if (group->there >> AGAIN_LAST & 1) {
		int64_t between = ts - group->field[AGAIN_LAST];
		set_most(group, AGAIN_MOST, between);
		if (!(group->there >> AGAIN_LEAST & 1) || between < group->field[AGAIN_LEAST])
			set(group, AGAIN_LEAST, between);
	} else {
		set(group, AGAIN_FIRST, ts);
	}
	set(group, AGAIN_LAST, ts);
}

static void sum_again(struct work *work)
{
	if (!work->tables->file[TIMES].blocks)
		return;
	struct packed_cursor send = cursor_in(work, SENDS), record = cursor_in(work, RECORDS), time = cursor_in(work, TIMES);
	while (go_on(work, &send, SEND_GENERATION)) {
		if (!has(&send, SEND_GENERATION) || !look_up(work, &record, send.values[0], RECORD_DATA_SIZE)
		    || record.values[RECORD_FLAGS] & ONE_WAY || !look_up(work, &time, send.values[SEND_SEQ], TIME_TS))
			continue;
		union keys keys = { 0 };
		set(&keys.group, AGAIN_GENERATION, send.values[SEND_GENERATION]);
		set_key(&keys.group, AGAIN_CODE, &record, RECORD_CODE);
		set_key(&keys.group, AGAIN_DATA_SIZE, &record, RECORD_DATA_SIZE);
		struct group *group = found(work, &keys.group);
		if (!group)
			return;
		if (!(group->there >> AGAIN_PLACE & 1))
			set(group, AGAIN_PLACE, send.values[0]);
		add(group, AGAIN_N, 1);
		add_time(group, time.values[TIME_TS]);
	}
}

/* A sum: its name and columns, how many tell its rows apart, which one is a real number (-1: none), and what makes it. */
struct sum {
	const char *name, *columns;
	int keys, fields, real;
	void (*make)(struct work *work);
};

static const struct sum SUMS[] = {
	{ "peer_sum", "generation, upid, ptr, cookie, deliveries, certain", PEER_KEYS, PEER_FIELDS, -1, sum_peers },
	{ "sent_sum", "generation, code, oneway, sends, failed, refused, open, bytes, delivered, one_fits, buffers, peak,"
		      " longest_seq, longest, good, good_seq, good_time, waited, handled, answer", SENT_KEYS, SENT_FIELDS,
	  SENT_BYTES, sum_sent },
	{ "came_sum", "reply, oneway, code, generation, handle, receiver, ptr, cookie, n, good, longest_seq, longest",
	  CAME_KEYS, CAME_FIELDS, -1, sum_came },
	{ "served_sum", "code, upid, ptr, cookie, n, good, longest_seq, longest", SERVED_KEYS, SERVED_FIELDS, -1,
	  sum_served },
	{ "came_name", "code, upid, ptr, interface, n", CAME_NAME_KEYS, CAME_NAME_FIELDS, -1, sum_came_names },
	{ "sent_name", "generation, code, interface, n", SENT_NAME_KEYS, SENT_NAME_FIELDS, -1, sum_sent_names },
	{ "again_sum", "generation, code, data_size, n, place, first, last, least, most", AGAIN_KEYS, AGAIN_FIELDS, -1,
	  sum_again },
};

/* ---- as virtual tables */

struct table {
	sqlite3_vtab base;
	sqlite3 *database;
	const struct sum *sum;
	char *path;		/* of the database */
};

struct cursor {
	sqlite3_vtab_cursor base;
	const struct table *table;
	struct groups groups;
	size_t at;
};

/* Takes the process of each thread. Threads have the numbers from 1 on, and the last one comes first. */
static int take_threads(sqlite3 *database, struct tables *tables)
{
	sqlite3_stmt *asked = NULL;
	int status = sqlite3_prepare_v2(database, "SELECT utid, upid FROM raw_thread ORDER BY utid DESC", -1, &asked, NULL);
	while (status == SQLITE_OK && sqlite3_step(asked) == SQLITE_ROW) {
		size_t utid = (size_t)sqlite3_column_int64(asked, 0);
		if (!tables->upid) {
			tables->upid = calloc(utid + 1, sizeof *tables->upid);
			tables->threads = utid;
		}
		if (tables->upid)
			tables->upid[utid] = sqlite3_column_int64(asked, 1);
		else
			status = SQLITE_NOMEM;
	}
	int ended = sqlite3_finalize(asked);
	return status ? status : ended;
}

static int open_tables(const struct table *table, struct tables *tables)
{
	int status = take_threads(table->database, tables);
	for (int file = 0; status == SQLITE_OK && file < FILES; file++) {
		char *path = sqlite3_mprintf("%s.%s", table->path, FILE_NAME[file]);
		status = path ? packed_map(&tables->file[file], path) : SQLITE_NOMEM;
		if (file == TIMES && status == SQLITE_CANTOPEN)
			status = SQLITE_OK;
		sqlite3_free(path);
	}
	return status;
}

static void close_tables(struct tables *tables)
{
	for (int file = 0; file < FILES; file++)
		packed_unmap(&tables->file[file]);
	free(tables->upid);
}

static void empty(struct groups *groups)
{
	free(groups->group);
	free(groups->place);
	*groups = (struct groups){ 0 };
}

/* Makes all rows, in their order. */
static int make_rows(sqlite3_vtab_cursor *base, int plan, const char *name, int count, sqlite3_value **values)
{
	(void)plan, (void)name, (void)count, (void)values;
	struct cursor *cursor = (struct cursor *)base;
	const struct sum *sum = cursor->table->sum;
	struct tables tables = { 0 };
	struct work work = { .tables = &tables, .groups = &cursor->groups };
	empty(&cursor->groups);
	cursor->groups.keys = sum->keys;
	cursor->groups.fields = sum->fields;
	cursor->groups.size = sizeof(struct group) + (size_t)sum->fields * sizeof(int64_t);
	cursor->at = 0;
	work.status = open_tables(cursor->table, &tables);
	if (work.status == SQLITE_OK)
		sum->make(&work);
	close_tables(&tables);
	if (work.status == SQLITE_OK && cursor->groups.count)
		qsort_r(cursor->groups.group, cursor->groups.count, cursor->groups.size, in_order, &cursor->groups);
	return work.status;
}

static int go_to_next(sqlite3_vtab_cursor *base)
{
	((struct cursor *)base)->at++;
	return SQLITE_OK;
}

static int is_at_end(sqlite3_vtab_cursor *base)
{
	return ((struct cursor *)base)->at >= ((struct cursor *)base)->groups.count;
}

static int give_column(sqlite3_vtab_cursor *base, sqlite3_context *to, int column)
{
	const struct cursor *cursor = (struct cursor *)base;
	const struct group *group = group_at(&cursor->groups, cursor->at);
	double real;
	if (!(group->there >> column & 1))
		return SQLITE_OK;
	memcpy(&real, &group->field[column], sizeof real);
	if (column == cursor->table->sum->real)
		sqlite3_result_double(to, real);
	else
		sqlite3_result_int64(to, group->field[column]);
	return SQLITE_OK;
}

static int give_number(sqlite3_vtab_cursor *base, sqlite3_int64 *number)
{
	*number = (sqlite3_int64)((struct cursor *)base)->at;
	return SQLITE_OK;
}

static int open_cursor(sqlite3_vtab *base, sqlite3_vtab_cursor **made)
{
	struct cursor *cursor = calloc(1, sizeof *cursor);
	*made = cursor ? &cursor->base : NULL;
	if (!cursor)
		return SQLITE_NOMEM;
	cursor->table = (const struct table *)base;
	return SQLITE_OK;
}

static int close_cursor(sqlite3_vtab_cursor *base)
{
	empty(&((struct cursor *)base)->groups);
	free(base);
	return SQLITE_OK;
}

static int best_plan(sqlite3_vtab *base, sqlite3_index_info *asked)
{
	int keys = ((struct table *)base)->sum->keys, in_order = 0;
	while (in_order < asked->nOrderBy && in_order < keys && asked->aOrderBy[in_order].iColumn == in_order
	       && !asked->aOrderBy[in_order].desc)
		in_order++;
	asked->orderByConsumed = asked->nOrderBy > 0 && in_order == asked->nOrderBy;
	asked->estimatedRows = 1 << 17;
	asked->estimatedCost = 1e7;
	return SQLITE_OK;
}

static int disconnect(sqlite3_vtab *base)
{
	sqlite3_free(((struct table *)base)->path);
	free(base);
	return SQLITE_OK;
}

static int connect(sqlite3 *database, void *nothing, int count, const char *const *words, sqlite3_vtab **made,
		   char **why)
{
	(void)nothing;
	const struct sum *sum = SUMS, *end = SUMS + sizeof SUMS / sizeof *SUMS;
	while (sum < end && strcmp(sum->name, words[2]))
		sum++;
	if (sum == end || count != 4) {
		*why = sqlite3_mprintf("%s: there is no such sum", words[2]);
		return SQLITE_ERROR;
	}
	char *declared = sqlite3_mprintf("CREATE TABLE sum(%s)", sum->columns);
	int status = declared ? sqlite3_declare_vtab(database, declared) : SQLITE_NOMEM;
	sqlite3_free(declared);
	struct table *table = calloc(1, sizeof *table);
	char *path = packed_unquoted(words[3]);
	if (status || !table || !path) {
		free(table);
		sqlite3_free(path);
		return status ? status : SQLITE_NOMEM;
	}
	*table = (struct table){ .database = database, .sum = sum, .path = path };
	*made = &table->base;
	return SQLITE_OK;
}

static const sqlite3_module sums_module = {
	.xCreate = connect, .xConnect = connect, .xBestIndex = best_plan, .xDisconnect = disconnect,
	.xDestroy = disconnect, .xOpen = open_cursor, .xClose = close_cursor, .xFilter = make_rows, .xNext = go_to_next,
	.xEof = is_at_end, .xColumn = give_column, .xRowid = give_number,
};

int sums_module_add(sqlite3 *database)
{
	return sqlite3_create_module(database, "sums", &sums_module, NULL);
}
