#define _GNU_SOURCE
#include "failures.h"
#include "books.h"
#include "drivers.h"
#include "kernel.h"
#include "side.h"
#include <stdio.h>
#include <string.h>
#include <unistd.h>

#define ENTRIES 32u			/* the most that the driver keeps */
#define LOG_BYTES 32768u
#define LOOK_EVERY 100000000u		/* nanoseconds */
#define DEVICE_BYTES 256u		/* of a name, with a NUL */

/* An entry of the log. `number` is the driver's, of the transaction. */
struct failure {
	long long number;
	char what[8];
	int pid, tid, to, handle, data, offsets, answer, error;
	char device[DEVICE_BYTES];
};

static int log_book = -1;
static u64 looked, last_number;			/* at the last look: the time, and the last number before it */
static struct failure failures[ENTRIES];	/* what the log had then, the oldest first */
static u32 count;

/* Takes a line apart. Returns whether it is an entry that the driver has written as a whole. */
static int read_entry(char *line, struct failure *to)
{
	int device = 0;
	memset(to, 0, sizeof *to);
	if (strstr(line, " (incomplete)") ||
	    sscanf(line, "%lld: %7s from %d:%d to %d:%*d context %n", &to->number, to->what, &to->pid, &to->tid, &to->to,
		   &device) < 5 || !device)
		return 0;
	char *end = NULL;
	for (char *next = line + device; (next = strstr(next, " node ")); next++)
		end = next;
	if (!end || sscanf(end, " node %*d handle %d size %d:%d ret %d/%d", &to->handle, &to->data, &to->offsets,
			   &to->answer, &to->error) < 5)
		return 0;
	*end = '\0';
	snprintf(to->device, sizeof to->device, "%s", line + device);
	return 1;
}

/* Reads the whole of it. The driver makes the text when its first bytes are read. Returns its length. */
static size_t read_log(char *text, u64 *number)
{
	size_t length = 0;
	ssize_t got;
	if (lseek(log_book, 0, SEEK_SET))
		return 0;
	while (length < LOG_BYTES - 1 && (got = read(log_book, text + length, LOG_BYTES - 1 - length)) > 0) {
		if (!length)
			*number = kernel_last_number();
		length += (size_t)got;
	}
	text[length] = '\0';
	return length;
}

/* The entries of the log, none if it is as it was before. While the driver writes one, it is the last of them, or in the
 * place of the oldest. */
static u32 read_entries(struct failure *entries, u64 *number)
{
	static char text[LOG_BYTES], before[LOG_BYTES];
	u32 found = 0;
	if (!read_log(text, number) || !strcmp(text, before))
		return 0;
	strcpy(before, text);
	for (char *line = strtok(text, "\n"); line && found < ENTRIES; line = strtok(NULL, "\n"))
		if (read_entry(line, entries + found))
			found++;
		else if (found)
			break;
	return found;
}

static void tell(const struct failure *one, u64 time, u64 number)
{
	char device[4 * DEVICE_BYTES];
	clean_name(device, one->device, DEVICE_BYTES - 1);
	side_line(time, "failed %u what=%s pid=%u tid=%u to=%u handle=%u data=%u offsets=%u answer=%u errno=%d from=%llu"
		  " after=%llu name=%s", (u32)one->number, strcmp(one->what, "async") ? one->what : "oneway",
		  (u32)one->pid, (u32)one->tid, (u32)one->to, (u32)one->handle, (u32)one->data, (u32)one->offsets,
		  (u32)one->answer, one->error < 0 ? -one->error : 0, (unsigned long long)last_number,
		  (unsigned long long)number, device);
}

/* Where what is new begins: after the last entry of before. If that is there no more, all are new, and there may have
 * been others. */
static u32 first_new(const struct failure *entries, u32 found, int *is_overrun)
{
	*is_overrun = 0;
	for (u32 i = found; i > 0 && count; i--)
		if (entries[i - 1].number == failures[count - 1].number)
			return i;
	*is_overrun = count || found == ENTRIES;
	return 0;
}

static void look(int is_told)
{
	static struct failure entries[ENTRIES];
	int is_overrun;
	/* What takes a number while the log is read may be in it already, or be new at the next look. */
	u64 time = now(), before = kernel_last_number(), number = before;
	u32 found = read_entries(entries, &number);
	u32 next = first_new(entries, found, &is_overrun);
	if (found && is_told && is_overrun)
		side_line(time, "overrun from=%llu after=%llu", (unsigned long long)last_number, (unsigned long long)number);
	for (u32 i = next; i < found && is_told; i++)
		tell(entries + i, time, number);
	if (found) {
		memcpy(failures, entries, sizeof failures);
		count = found;
	}
	looked = time;
	last_number = before;
}

void failures_begin(void)
{
	log_book = books_open(DRIVER_IN_C, "failed_transaction_log");
	if (log_book >= 0)
		look(0);
}

void failures_look(void)
{
	if (log_book >= 0 && now() - looked >= LOOK_EVERY && kernel_last_number() != last_number)
		look(1);
}

void failures_end(void)
{
	if (log_book < 0)
		return;
	look(1);
	close(log_book);
	log_book = -1;
}
