/* service list: asks the manager for the names of all services, and each service for its interface, as the program of
 * this name does on Android. */
#include <stdio.h>
#include <string.h>
#include "names.h"

static struct exchange *exchange;

static void interface_of(uint32_t handle, char *interface)
{
	transaction reply;
	interface[0] = 0;
	if (!handle || send_parcel(exchange, handle, INTERFACE_TRANSACTION, 0, NULL, &reply) != BR_REPLY) return;
	string_at(&reply, 0, interface);
	free_buffer(exchange, &reply);
	turn(exchange, false);
}

int main(int words, char **word)
{
	transaction reply;
	uint32_t count;
	struct parcel parcel = parcel_of_manager();
	char name[MOST_NAME_BYTES], interface[MOST_NAME_BYTES];
	if (words != 2 || strcmp(word[1], "list")) return 64;
	share_memory();
	exchange = opened("binder");
	put_number(&parcel, 15);		/* of all priorities */
	if (send_parcel(exchange, MANAGER, LIST_SERVICES, 0, &parcel, &reply) != BR_REPLY) fail("list");
	memcpy(&count, (const uint8_t *)reply.data.ptr.buffer + 4, sizeof count);
	printf("Found %u services:\n", count);
	size_t at = 8;
	for (uint32_t i = 0; i < count; i++) {
		at = string_at(&reply, at, name);
		interface_of(look_up_named(exchange, name), interface);
		printf("%u\t%s: [%s]\n", i, name, interface);
	}
	return 0;
}
