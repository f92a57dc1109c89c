/* What the programs that check the recorder's loader share: see kit.h. */
#define _GNU_SOURCE
#include "kit.h"
#include "parts.h"
#include "side.h"
#include "window.h"
#include <errno.h>
#include <linux/bpf.h>
#include <stdlib.h>
#include <string.h>
#include <sys/resource.h>
#include <sys/stat.h>
#include <time.h>
#include <unistd.h>

int failed;
char *list;

void should(int is_so, const char *what, double value)
{
	if (is_so)
		return;
	printf("checks/%s: %s: %g\n", program_invocation_short_name, what, value);
	failed = 1;
}

double processor_seconds(void)
{
	struct timespec time;
	clock_gettime(CLOCK_PROCESS_CPUTIME_ID, &time);
	return (double)time.tv_sec + (double)time.tv_nsec / 1e9;
}

double mebibytes(void)
{
	struct rusage used;
	getrusage(RUSAGE_SELF, &used);
	return (double)used.ru_maxrss / 1024;
}

void *all_of(FILE *file, u64 *bytes)
{
	struct stat about;
	u64 room = 4096 + (fstat(fileno(file), &about) ? 0 : (u64)about.st_size);
	char *text = allocate(room);
	*bytes = fread(text, 1, room - 1, file);
	while (*bytes == room - 1) {
		text = resize(text, room *= 2);
		*bytes += fread(text + *bytes, 1, room - 1 - *bytes, file);
	}
	text[*bytes] = 0;
	return text;
}

void *whole_file(const char *path, u64 *bytes)
{
	FILE *file = fopen(path, "r");
	if (!file)
		fail("%s can't be read", path);
	void *text = all_of(file, bytes);
	fclose(file);
	return text;
}

u64 own_start(void)
{
	unsigned long long ticks = 0;
	u64 bytes;
	char *text = whole_file("/proc/self/stat", &bytes), *rest = strrchr(text, ')');
	for (int field = 2; field < 22 && rest; field++)
		rest = strchr(rest + 1, ' ');
	if (!rest || sscanf(rest, "%llu", &ticks) != 1)
		fail("/proc/self/stat");
	free(text);
	return ticks * (1000000000u / (u64)sysconf(_SC_CLK_TCK));
}

void read_side_list(void)
{
	u64 bytes;
	parts_flush();
	free(list);
	list = whole_file(side_path(), &bytes);
}

/* With the sanitizers strstr looks at the whole rest each time. */
int times(const char *text)
{
	int found = 0;
	for (const char *at = list; *at; at++) {
		u32 same = 0;
		while (text[same] && at[same] == text[same])
			same++;
		found += !text[same];
	}
	return found;
}

void made_ring_begin(struct made_ring *made, u64 size)
{
	made->bytes = allocate(size);
	made->taken = made->put = 0;
	made->ring = (struct ring){ .taken = &made->taken, .put = &made->put, .bytes = made->bytes, .size = size };
}

void made_ring_put(struct made_ring *made, const void *message, u64 bytes, const void *more, u64 count)
{
	u32 length = (u32)(bytes + count);
	u64 next = made->put + MULTIPLE_OF_8(BPF_RINGBUF_HDR_SZ + bytes + count);
	u8 *to = made->bytes + made->put;
	if (next > made->ring.size)
		fail("the ring that is made up is full");
	memcpy(to, &length, sizeof length);
	memcpy(to + BPF_RINGBUF_HDR_SZ, message, bytes);
	if (more)
		memcpy(to + BPF_RINGBUF_HDR_SZ + bytes, more, count);
	made->put = next;
}

void made_ring_take(struct made_ring *made)
{
	window_take(&made->ring);
	while (window_settle())		/* it writes for a moment at most */
		continue;
	window_give_back(&made->ring);
	made->taken = made->put = 0;
}
