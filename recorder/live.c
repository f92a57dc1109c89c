#define _GNU_SOURCE
#include "live.h"
#include "codes.h"
#include "interfaces.h"
#include "live_lines.h"
#include "oneways.h"
#include "open_calls.h"
#include "rates.h"
#include <linux/android/binder.h>
#include <string.h>

#define EVERY 1000000000u		/* nanoseconds */

int live_is_on;
static struct live_counts counts;
static u64 refused_before;		/* sends that were refused by the last frame */

void live_begin(const struct options *options)
{
	if (!options->live)
		return;
	live_is_on = 1;
	counts.time = now();
	open_calls_begin();
	live_lines_begin(options);
}

static void count(const struct frame *frame, const struct binder_transaction_data *data, u64 from, u32 interface,
		  int is_oneway)
{
	struct rate rate = { .device = frame->who.device, .to = frame->who.process, .from = from, .code = data->code,
			     .from_pid = from ? 0 : (u32)data->sender_pid, .interface = interface,
			     .is_oneway = (u32)is_oneway };
	*(is_oneway ? &counts.oneways : &counts.calls) += 1;
	rates_count(&rate);
}

/* The thread of the frame serves the call since this record, unless it serves too many. */
static void deliver_call(const struct frame *frame, u32 record, const struct binder_transaction_data *data)
{
	const struct open_level *level = open_calls_innermost(&frame->who);
	int is_this = level && level->serves && level->number == frame->number && level->record == record;
	const struct open_level *call = is_this ? level->other : NULL;
	count(frame, data, call ? call->thread->who.process + 1ull : 0, is_this ? level->interface : 0, 0);
}

static void take_transaction(const struct frame *frame, u32 at, const u8 *payload)
{
	struct binder_transaction_data data;
	memcpy(&data, payload, sizeof data);
	int is_oneway = (data.flags & TF_ONE_WAY) != 0;
	if (frame->direction == DIRECTION_READ && !is_oneway)
		deliver_call(frame, at, &data);
	else if (frame->direction == DIRECTION_READ)
		count(frame, &data, oneways_delivered(frame, at, &data), interface_of(frame, at), 1);
	else if (is_oneway)
		oneways_sent(frame, at, &data);
}

static void take(const struct frame *frame, u32 at, const struct record *record)
{
	u64 address;
	switch (record->word) {
	case BC_TRANSACTION: case BC_TRANSACTION_SG: case BR_TRANSACTION: case BR_TRANSACTION_SEC_CTX:
		take_transaction(frame, at, record->payload);
		break;
	case BC_FREE_BUFFER:
		memcpy(&address, record->payload, sizeof address);
		oneways_freed(&frame->who, address);
		break;
	case BR_REPLY: counts.answers++; break;
	}
}

void live_take(const struct frame *frame)
{
	struct record record;
	for (u64 at = 0; record_at(frame->commands, frame->bytes, at, &record); at = record.end)
		take(frame, (u32)at, &record);
	if (refused_sends.count == refused_before)
		return;
	counts.refused += refused_sends.count - refused_before;
	refused_before = refused_sends.count;
	oneways_refused(refused_sends.number, refused_sends.record);
}

void live_look(void)
{
	u64 time = live_is_on ? now() : 0;
	if (!live_is_on || time - counts.time < EVERY)
		return;
	live_lines(&counts, time);
	counts = (struct live_counts){ .time = time };
	rates_pass();
}
