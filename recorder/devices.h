/* The character devices of the system: their numbers, as the kernel keeps them, and their names. */
#ifndef RECORDER_DEVICES_H
#define RECORDER_DEVICES_H
#include "drivers.h"

u32 device_major(u32 device);
u32 device_minor(u32 device);
/* The number of a Binder device, given its path or its name in /dev or /dev/binderfs; 0 if there is none. */
u32 device_by_name(const char *name);
/* Hears a device, by its number, and its driver. */
typedef void hear_device(u32 device, enum driver driver);
/* Hears each device that the driver made itself. Those of a binderfs are not among them. */
void devices_made_by_driver(hear_device *hear);
/* Hears each Binder device, also those of each binderfs. */
void devices_all(hear_device *hear);
/* Writes the device's name into `name`, which has CLEAN_NAME_BYTES; a question mark if it has none. */
void device_name(u32 device, char *name);
#endif
