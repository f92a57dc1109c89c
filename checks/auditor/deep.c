/* Calls itself as often as the first argument says, for checks/load: in its first thread, or with a second argument in
   another thread. Each call takes at least 16 bytes of stack, so a million of them do not fit into 256 KiB. */
#include <pthread.h>
#include <stdlib.h>

static volatile long calls;

__attribute__((noinline)) static long deep(long left)
{
	calls++;
	if (left <= 1)
		return calls;
	long below = deep(left - 1);
	return below + calls;
}

static void *in_thread(void *depth)
{
	calls = deep((long)depth);
	return NULL;
}

int main(int count, char **words)
{
	void *depth = (void *)(count > 1 ? atol(words[1]) : 1);
	pthread_t thread;
	if (count < 3)
		in_thread(depth);
	else if (pthread_create(&thread, NULL, in_thread, depth) || pthread_join(thread, NULL))
		return 1;
	return 0;
}
