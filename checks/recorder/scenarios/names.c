/* Names of services: see names.h. */
#include <stdio.h>
#include <string.h>
#include "names.h"

#define STRICT_MODE 0x42000000u
#define WORK_SOURCE 0xffffffffu
#define SYSTEM 0x53595354u	/* who made it: `SYST` */

void put_number(struct parcel *parcel, uint32_t number)
{
	put_bytes(parcel, &number, sizeof number);
}

/* Two bytes for each character and a NUL, up to a multiple of four. */
void put_string(struct parcel *parcel, const char *text)
{
	put_number(parcel, (uint32_t)strlen(text));
	for (const char *each = text; each <= text + strlen(text); each++) put_bytes(parcel, (char[2]){*each}, 2);
	if (parcel->size % 4) put_bytes(parcel, "\0", 2);
}

struct parcel parcel_of(const char *interface)
{
	struct parcel parcel = {0};
	put_number(&parcel, STRICT_MODE);
	put_number(&parcel, WORK_SOURCE);
	put_number(&parcel, SYSTEM);
	put_string(&parcel, interface);
	return parcel;
}

struct parcel parcel_of_manager(void)
{
	return parcel_of("android.os.IServiceManager");
}

size_t string_at(const transaction *delivered, size_t at, char *to)
{
	const uint8_t *data = (const uint8_t *)delivered->data.ptr.buffer + at;
	uint32_t length = 0;
	to[0] = 0;
	if (delivered->data_size < at + sizeof length) return at;
	memcpy(&length, data, sizeof length);
	if (length >= MOST_NAME_BYTES || delivered->data_size < at + sizeof length + 2 * length) return at;
	for (uint32_t i = 0; i < length; i++) to[i] = (char)data[sizeof length + 2 * i];
	to[length] = 0;
	return at + sizeof length + (2 * length + 2 + 3) / 4 * 4;
}

/* ---- the manager */

enum { MOST_SERVICES = 8 };
static struct { char name[MOST_NAME_BYTES]; uint32_t handle; } kept[MOST_SERVICES];
static uint32_t count;

uint32_t handle_kept(const char *name)
{
	for (uint32_t i = 0; i < count; i++)
		if (!strcmp(kept[i].name, name)) return kept[i].handle;
	return 0;
}

void keep_handle(struct exchange *exchange, const char *name, uint32_t handle)
{
	if (count == MOST_SERVICES) fail("too many services");
	snprintf(kept[count].name, sizeof kept[count].name, "%s", name);
	kept[count++].handle = handle;
	number_command(exchange, BC_ACQUIRE, handle);
	shared->ready++;
}

void put_names_kept(struct parcel *parcel)
{
	put_number(parcel, count);
	for (uint32_t i = 0; i < count; i++) put_string(parcel, kept[i].name);
}

/* ---- who asks it */

uint32_t look_up_named(struct exchange *exchange, const char *name)
{
	transaction reply;
	struct parcel parcel = parcel_of_manager();
	put_string(&parcel, name);
	if (send_parcel(exchange, MANAGER, CHECK_SERVICE, 0, &parcel, &reply) != BR_REPLY) fail("check");
	uint32_t handle = handle_in(&reply);
	if (handle) number_command(exchange, BC_ACQUIRE, handle);
	free_buffer(exchange, &reply);
	turn(exchange, false);
	return handle;
}
