/* system: a small Android for a guest: a manager of names, services that register with it, and an app that calls them.
 * All are there long before a recording. The service `notes` never frees what comes with code 2. `system fill FOLDER`
 * calls one with much data, until the file system of a folder is full, and somewhat longer. `system hang` makes a call
 * that is answered after 20 s. */
#define _GNU_SOURCE
#include <stdio.h>
#include <string.h>
#include <sys/statvfs.h>
#include <unistd.h>
#include "names.h"

enum { KEEP = 2, HANG, HANG_SECONDS = 20 };

static const struct service {
	const char *process, *name, *interface;
} services[] = {
	{"clockd", "clock", "org.example.IClock"},
	{"notesd", "notes", "org.example.INotes"},
	{"mixer", "audio.mixer", "org.example.audio.IMixer"},
	{"powerd", "org.example.IPower/default", "org.example.IPower"},
	{"searchd", "search", "org.example.ISearch"},
};
enum { SERVICES = sizeof services / sizeof *services, NOTES = 1 };

/* ---- the manager */

static void manage_names(struct exchange *exchange, transaction *delivered)
{
	struct parcel parcel = {0};
	char name[MOST_NAME_BYTES];
	string_at(delivered, TOKEN_BYTES, name);
	put_number(&parcel, 0);			/* no exception */
	switch (delivered->code) {
	case ADD_SERVICE:
		keep_handle(exchange, name, handle_in(delivered));
		break;
	case LIST_SERVICES:
		put_names_kept(&parcel);
		break;
	default:
		put_flat(&parcel, handle_kept(name) ? BINDER_TYPE_HANDLE : BINDER_TYPE_BINDER, handle_kept(name), 0,
			 0x7f);
		put_number(&parcel, 0xc);	/* how stable it is */
	}
	reply_to(exchange, delivered, &parcel);
	free_buffer(exchange, delivered);
}

static void manager_of_names(void) { manage_with("binder", 0, manage_names); }

/* ---- the services */

static const struct service *own;

static void serve_one(struct exchange *exchange, transaction *delivered)
{
	struct parcel parcel = {0};
	if (delivered->code == HANG) sleep(HANG_SECONDS);
	if (delivered->code == INTERFACE_TRANSACTION) put_string(&parcel, own->interface);
	reply_to(exchange, delivered, &parcel);
	if (delivered->code != KEEP || own != &services[NOTES]) free_buffer(exchange, delivered);
}

static void be_service(void)
{
	struct exchange *exchange = opened("binder");
	struct parcel parcel = parcel_of_manager();
	exchange->opening->serve = serve_one;
	put_string(&parcel, own->name);
	put_flat(&parcel, BINDER_TYPE_BINDER, 0x1000, 0x2000, 0x7f | FLAT_BINDER_FLAG_ACCEPTS_FDS);
	put_number(&parcel, 0xc);
	put_number(&parcel, 0);			/* not for isolated processes */
	put_number(&parcel, 8);			/* when it is dumped */
	if (send_parcel(exchange, MANAGER, ADD_SERVICE, 0, &parcel, NULL) != BR_REPLY) fail("register");
	ready_to_serve(exchange);
}

/* ---- the app: as on Android, a process of a user of its own */

enum { USER = 10123 };

static void ask(struct exchange *exchange, uint32_t handle, const struct service *it, uint32_t code, size_t extra)
{
	static const uint8_t bytes[512];
	struct parcel parcel = parcel_of(it->interface);
	put_bytes(&parcel, bytes, extra);
	send_parcel(exchange, handle, code, 0, &parcel, NULL);
}

static void app(void)
{
	if (setresgid(USER, USER, USER) || setresuid(USER, USER, USER)) fail("the user of the app");
	struct exchange *exchange = opened("binder");
	uint32_t handles[SERVICES];
	for (int i = 0; i < SERVICES; i++) handles[i] = look_up_named(exchange, services[i].name);
	shared->ready++;
	for (uint32_t round = 0;; round++) {
		for (int i = 0; i < SERVICES; i++) ask(exchange, handles[i], services + i, ECHO, 4);
		if (round % 4 == 0) ask(exchange, handles[NOTES], services + NOTES, KEEP, 16);
		usleep(500000);
	}
}

static void begin_system(void)
{
	start("servicemanager", manager_of_names);
	wait_until(&shared->ready, 1);
	for (int i = 0; i < SERVICES; i++) {
		own = services + i;
		start(own->process, be_service);
		wait_until(&shared->ready, 3 + 2 * i);
	}
	start("org.example.app", app);
	wait_until(&shared->ready, 2 + 2 * SERVICES);
	printf("system: %u services\n", SERVICES);
	fflush(stdout);
	rest();
}

/* ---- a disk that is to be full */

enum { FEW_BYTES = 1 << 16, LONGER = 4000 };

static bool is_full(const char *folder)
{
	struct statvfs found;
	if (statvfs(folder, &found)) fail(folder);
	return found.f_bavail * found.f_frsize < FEW_BYTES;
}

static void fill(const char *folder)
{
	struct exchange *exchange = opened("binder");
	uint32_t handle = look_up_named(exchange, services[0].name);
	while (!is_full(folder)) ask(exchange, handle, services, ECHO, 512);
	for (int i = 0; i < LONGER; i++) ask(exchange, handle, services, ECHO, 512);
}

static void hang(void)
{
	struct exchange *exchange = opened("binder");
	ask(exchange, look_up_named(exchange, services[0].name), services, HANG, 4);
}

int main(int words, char **word)
{
	share_memory();
	if (words > 2 && !strcmp(word[1], "fill")) fill(word[2]);
	else if (words > 1 && !strcmp(word[1], "hang")) hang();
	else begin_system();
}
