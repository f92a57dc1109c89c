/*
 * The program that walks through a capture for walk.py, which starts it:
 *
 *     walker json|packets DATABASE < ORDERS > TOLD
 *
 * What both say is messages, one after another: what it is, how many numbers and how many bytes follow, the numbers, and
 * the bytes. Orders are obeyed in their order; to some of them the walk answers that they are done. When the walk asks
 * something, it obeys up to the answer: that may have texts, and what walk.py has to write first. It ends where the
 * orders end, and when nobody reads what it tells.
 */
#include <stdio.h>
#include <stdlib.h>
#include <string.h>

#include "walk.h"

/* The orders, in the order in which walker.py names them. */
enum order { TEXT, ANSWER, PACKET, EVENT, LINE, INSTANT, GIVEN, THREAD, SHOWN, ENDED, ARGUMENT, EVENT_BEGIN, CLOCK,
	NAME, STATEMENTS, SYNC, GO_TO, GO_TO_FINDING, GO_TO_MARK, FLUSH, END };

enum { MOST_NUMBERS = 1 << 26, MOST_DATA = 1 << 30 };

struct head {
	int32_t what;
	uint32_t numbers;
	uint64_t length;
};

struct message {
	struct head head;
	int64_t *number;
	unsigned char *data;
};

void orders_tell(enum ask what, const int64_t *numbers, size_t count, const unsigned char *data, size_t length)
{
	struct head head = { (int32_t)what, (uint32_t)count, length };
	fwrite(&head, sizeof head, 1, stdout);
	if (count)
		fwrite(numbers, sizeof *numbers, count, stdout);
	if (length)
		fwrite(data, 1, length, stdout);
	if (fflush(stdout))
		exit(0);	/* nobody reads */
}

static void must_read(void *to, size_t length)
{
	if (length && fread(to, length, 1, stdin) != 1)
		exit(0);	/* nobody orders any more */
}

/* Reads a message; `data` of it has a byte of 0 at its end. */
static void read_message(struct message *message)
{
	struct head *head = &message->head;
	must_read(head, sizeof *head);
	if (head->numbers > MOST_NUMBERS || head->length > MOST_DATA)
		exit(1);
	message->number = calloc(head->numbers + 1, sizeof *message->number);
	message->data = malloc(head->length + 1);
	if (!message->number || !message->data)
		exit(1);
	must_read(message->number, head->numbers * sizeof *message->number);
	must_read(message->data, head->length);
	message->data[head->length] = 0;
}

/* What was counted, and of JSON the text of the time of instants. */
static void tell_done(struct walk *walk, enum status status)
{
	int64_t numbers[COUNTS + 1] = { (int64_t)status };
	memcpy(numbers + 1, walk->count, sizeof walk->count);
	const struct bytes *at = walk_time(walk);
	orders_tell(TELL_DONE, numbers, COUNTS + 1, at ? at->at : NULL, at ? at->length : 0);
}

/* Three statements, each behind a byte of 0. */
static void read_rows(struct walk *walk, const char *path, const struct message *message)
{
	const char *statement[STREAMS], *at = (const char *)message->data, *end = at + message->head.length;
	for (int of = 0; of < STREAMS; of++) {
		statement[of] = at <= end ? at : "";
		at += at <= end ? strlen(at) + 1 : 0;
	}
	rows_begin(walk, path, statement);
}

/* So many numbers belong to an order. */
static int numbers_of(enum order what)
{
	switch (what) {
	case ANSWER: case SHOWN: case GO_TO: return 1;
	case ENDED: case ARGUMENT: case CLOCK: return 2;
	case THREAD: return 3;
	case NAME: return 4;
	case GO_TO_FINDING: return 5;
	case GO_TO_MARK: return 6;
	case GIVEN: return sizeof(struct given) / sizeof(int64_t);
	default: return 0;
	}
}

static const char *database_path;

/* Obeys an order that needs no answer. */
static void obey(struct walk *walk, const struct message *message)
{
	const int64_t *number = message->number;
	const unsigned char *data = message->data;
	size_t length = message->head.length;
	struct given given;
	switch ((enum order)message->head.what) {
	case TEXT: walk_add_answer(walk, data, length); break;
	case PACKET: walk_packet(walk, data, length); break;
	case EVENT: walk_event(walk, data, length); break;
	case LINE: walk_line(walk, data, length); break;
	case INSTANT: walk_instant(walk); break;
	case GIVEN: memcpy(&given, number, sizeof given); walk_begin(walk, &given); break;
	case THREAD: walk_set_thread(walk, number[0], number[1], number[2]); break;
	case SHOWN: walk_show_thread(walk, number[0], data, length); break;
	case ENDED: walk_set_ended(walk, number[0], number[1]); break;
	case ARGUMENT: walk_add_argument(walk, number[0], number[1], data, length); break;
	case EVENT_BEGIN: walk_set_text(walk, &walk->event_begin, data, length); break;
	case CLOCK: walk_add_clock(walk, number[0], number[1]); break;
	case NAME: walk_add_name(walk, number[0], number[1], number[2], number[3]); break;
	case STATEMENTS: read_rows(walk, database_path, message); break;
	case SYNC: tell_done(walk, walk->status); break;
	case GO_TO: tell_done(walk, walk_to(walk, number[0])); break;
	case GO_TO_FINDING:
		tell_done(walk, walk_to_finding(walk, number[0], number[1], number[2] ? &number[3] : NULL, number[4]));
		break;
	case GO_TO_MARK:
		tell_done(walk, walk_to_mark(walk, number[0], number[1], number[2] ? &number[3] : NULL, number[4],
					     (enum why)number[5], number + 6, message->head.numbers - 6));
		break;
	case FLUSH: walk->format->flush(walk); tell_done(walk, walk->status); break;
	case END: walk_end(walk); tell_done(walk, walk->status); break;
	case ANSWER: break;
	}
}

int orders_follow(struct walk *walk)
{
	struct message message;
	for (;;) {
		read_message(&message);
		if (message.head.numbers < (uint32_t)numbers_of((enum order)message.head.what))
			exit(1);
		int is_answer = message.head.what == ANSWER, bits = (int)message.number[0];
		obey(walk, &message);
		free(message.number);
		free(message.data);
		if (is_answer)
			return bits;
	}
}

int main(int count, char **words)
{
	if (count != 3)
		return 1;
	struct walk *walk = calloc(1, sizeof *walk);
	if (!walk)
		return 1;
	database_path = words[2];
	walk->format = strcmp(words[1], "json") ? &packets_format : &json_format;
	for (;;)
		orders_follow(walk);
}
