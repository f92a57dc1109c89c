/* Scenes for `record --live`, which SCENE in the environment names:
 *
 * - hang: com.example.app calls ICamera code 3 of the camera service. The thread that has it calls the HAL, which never
 *   answers. A second call waits, since the other thread of the service serves one of its own too; and of three oneways
 *   one was taken and not freed, and two were not taken. One call was refused.
 * - flood: 60 callers make calls and oneways, a thousand a second or more.
 * - hostile: a process whose name and command line are there to disturb the screen has called, and waits; with
 *   `disturbs` it also calls itself.
 */
#define _GNU_SOURCE
#include "scene.h"
#include "names.h"
#include <stdio.h>
#include <stdlib.h>
#include <string.h>

enum {
	APP = 10, CAMERA, HAL, HOSTILE, FLOOD,		/* openings */
	CALLERS = 60,
	CALLS_AT_A_LOOK = 20,
};

enum thread_number {
	APP_MAIN = 20, APP_SECOND, APP_WORKER, CAMERA_FIRST, CAMERA_SECOND, HAL_FIRST, HOSTILE_FIRST, HOSTILE_SECOND,
	FLOODED, FLOODING,				/* and those after it */
};

static hearer *hear;
static u64 last;
static u32 opening;				/* of the frame that is made */
static u8 data[512];
static u32 data_bytes;

int scene_has(const char *part)
{
	const char *scene = getenv("SCENE");
	return scene && strstr(scene, part) != NULL;
}

/* ---- processes */

static void meet(u32 number, u32 process, const char *name, const char *line, u32 bytes)
{
	struct command command = { .head = head_of(MESSAGE_COMMAND, 0, 0, number, 0), .user = 10123, .bytes = bytes };
	made_opening(number, process, name);
	memcpy(command.text, line, bytes < COMMAND_BYTES ? bytes : COMMAND_BYTES);
	if (bytes)
		names_command(&command);
}

#define HOSTILE_NAME "\x1b[2J\x1b]0;no\a\xff\x9b"
#define HOSTILE_LINE "/bin/\x1b[31m\xe2\x80\xae\xff\xfe\xc2\x9b\\x41\n\t\xcc\x81 \x0e"

void scene_meet(void)
{
	char longest[COMMAND_BYTES];
	memset(longest, 'w', sizeof longest);
	memcpy(longest, HOSTILE_LINE, sizeof HOSTILE_LINE - 1);
	meet(APP, 2000, "m.example.app", "com.example.app", 15);
	meet(CAMERA, 3000, "cameraserver", "/system/bin/cameraserver", 24);
	meet(HAL, 5000, "camera-hal", "", 0);
	meet(HOSTILE, 4000, HOSTILE_NAME, longest, sizeof longest);
	made_thread(APP_MAIN, 2000, 2000, "main");
	made_thread(APP_SECOND, 2001, 2000, "second");
	made_thread(APP_WORKER, 2002, 2000, "worker");
	made_thread(CAMERA_FIRST, 3001, 3000, "Binder:3000_1");
	made_thread(CAMERA_SECOND, 3002, 3000, "Binder:3000_2");
	made_thread(HAL_FIRST, 5001, 5000, "hal");
	made_thread(HOSTILE_FIRST, 4000, 4000, HOSTILE_NAME);
	made_thread(HOSTILE_SECOND, 4001, 4000, "\xf0\x9f\x92\xa9");
	meet(FLOOD, 6000, "flooded", "", 0);
	made_thread(FLOODED, 6001, 6000, "flooded");
	for (u32 i = 0; i < CALLERS; i++) {
		char name[NAME_BYTES];
		snprintf(name, sizeof name, "caller-%02u", i);
		meet(FLOOD + 1 + i, 7000 + i, name, "", 0);
		made_thread(FLOODING + i, 7000 + i, 7000 + i, name);
	}
}

/* ---- frames */

/* Data that begins with the token of an interface, and ends with a number. */
static void token(const char *interface, u32 number)
{
	u32 length = (u32)strlen(interface), head[4] = { 0, 0, 0x53595354, length };
	memset(data, 0, sizeof data);
	memcpy(data, head, sizeof head);
	for (u32 i = 0; i < length; i++)
		data[sizeof head + 2 * i] = (u8)interface[i];
	data_bytes = (u32)sizeof head + (((length + 1) * 2 + 3) & ~3u);
	memcpy(data + data_bytes, &number, sizeof number);
	data_bytes += (u32)sizeof number;
}

static void carry(u32 word, u32 handle, u32 code, u32 flags, u32 sender, u64 buffer)
{
	made_send(word, (struct binder_transaction_data){ .target.handle = handle, .code = code, .flags = flags,
							  .sender_pid = (int)sender, .sender_euid = 10123,
							  .data_size = data_bytes, .data.ptr.buffer = buffer });
}

/* The frame of the commands; the last one carries the data, if there is any. */
static void hear_frame(u32 direction, u32 thread)
{
	made_frame(hear, head_of(MESSAGE_CHUNK, direction, ++last, opening, thread), data, data_bytes);
	data_bytes = 0;
}

static void send(u32 from, u32 thread, u32 handle, const char *interface, u32 code, u32 flags, u32 number)
{
	opening = from;
	token(interface, number);
	carry(BC_TRANSACTION, handle, code, flags, 0, 0);
	hear_frame(DIRECTION_WRITE, thread);
	if (!flags)
		return;
	made_code(BR_NOOP);
	made_code(BR_TRANSACTION_COMPLETE);
	hear_frame(DIRECTION_READ, thread);
}

static void get(u32 to, u32 thread, const char *interface, u32 code, u32 flags, u32 number, u32 sender, u64 buffer)
{
	opening = to;
	made_code(BR_NOOP);
	token(interface, number);
	carry(BR_TRANSACTION, 0, code, flags, sender, buffer);
	hear_frame(DIRECTION_READ, thread);
}

static void free_buffer(u32 process, u32 thread, u64 buffer)
{
	opening = process;
	made_record(BC_FREE_BUFFER, &buffer, sizeof buffer);
	hear_frame(DIRECTION_WRITE, thread);
}

static void answer(u32 process, u32 thread, u32 caller, u32 calling, u64 buffer)
{
	opening = process;
	made_record(BC_FREE_BUFFER, &buffer, sizeof buffer);
	carry(BC_REPLY, 0, 0, 0, 0, 0);
	hear_frame(DIRECTION_WRITE, thread);
	opening = caller;
	made_code(BR_NOOP);
	made_code(BR_TRANSACTION_COMPLETE);
	carry(BR_REPLY, 0, 0, 0, 0, 0x9000);
	hear_frame(DIRECTION_READ, calling);
}

static void enter_pool(u32 process, u32 thread)
{
	opening = process;
	made_code(BC_ENTER_LOOPER);
	hear_frame(DIRECTION_WRITE, thread);
}

/* ---- scenes */

static const char camera[] = "android.hardware.ICamera", hal[] = "android.hardware.ICameraDevice";

static void begin_hang(void)
{
	enter_pool(CAMERA, CAMERA_FIRST);
	enter_pool(CAMERA, CAMERA_SECOND);
	enter_pool(HAL, HAL_FIRST);
	send(APP, APP_MAIN, 7, camera, 3, 0, 1);
	get(CAMERA, CAMERA_FIRST, camera, 3, 0, 1, 2000, 0x1000);
	send(CAMERA, CAMERA_FIRST, 2, hal, 5, 0, 1);
	get(HAL, HAL_FIRST, hal, 5, 0, 1, 3000, 0x1000);
	for (u32 i = 0; i < 3; i++)
		send(APP, APP_WORKER, 7, camera, 9, TF_ONE_WAY, i);
	get(CAMERA, CAMERA_SECOND, camera, 9, TF_ONE_WAY, 0, 0, 0x2000);
	opening = APP;
	send(APP, APP_WORKER, 99, camera, 4, 0, 1);
	made_code(BR_NOOP);
	made_code(BR_FAILED_REPLY);
	hear_frame(DIRECTION_READ, APP_WORKER);
	send(APP, APP_SECOND, 7, camera, 4, 0, 1);
}

static void flood(u32 look)
{
	for (u32 i = 0; i < CALLS_AT_A_LOOK; i++) {
		u32 caller = (look * CALLS_AT_A_LOOK + i) % CALLERS, code = 1 + caller % 7;
		send(FLOOD + 1 + caller, FLOODING + caller, 1, "com.example.IFlood", code, 0, look);
		get(FLOOD, FLOODED, "com.example.IFlood", code, 0, look, 7000 + caller, 0x4000);
		answer(FLOOD, FLOODED, FLOOD + 1 + caller, FLOODING + caller, 0x4000);
	}
	send(FLOOD + 1, FLOODING, 1, "com.example.IFlood", 20, TF_ONE_WAY, look);
	get(FLOOD, FLOODED, "com.example.IFlood", 20, TF_ONE_WAY, look, 0, 0x5000);
	free_buffer(FLOOD, FLOODED, 0x5000);
}

static void disturb(void)
{
	send(HOSTILE, HOSTILE_FIRST, 1, "com.example.IHostile", 1, 0, 1);
	get(HOSTILE, HOSTILE_SECOND, "com.example.IHostile", 1, 0, 1, 4000, 0x6000);
	answer(HOSTILE, HOSTILE_SECOND, HOSTILE, HOSTILE_FIRST, 0x6000);
}

u64 scene_play(hearer *heard_by, u64 from, u32 look)
{
	hear = heard_by;
	last = from;
	if (look == 1 && scene_has("hang"))
		begin_hang();
	if (look == 1 && scene_has("hostile"))
		send(HOSTILE, HOSTILE_FIRST, 1, "com.example.IHostile", 2, 0, 1);
	if (scene_has("flood"))
		flood(look);
	if (look > 1 && scene_has("disturbs"))
		disturb();
	return last;
}
