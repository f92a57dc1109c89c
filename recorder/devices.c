#define _GNU_SOURCE
#include "devices.h"
#include "binderfs.h"
#include "side.h"
#include <dirent.h>
#include <fcntl.h>
#include <stdio.h>
#include <string.h>
#include <sys/stat.h>
#include <sys/sysmacros.h>

#define MINOR_BITS 20
#define MOST_NAME_BYTES 128u

static const char *const folders[] = { "/dev", "/dev/binderfs" };
static const char *const driver_names[] = {	/* name the devices that the driver in C makes without binderfs */
	"/sys/module/binder_linux/parameters/devices",
	"/sys/module/binder/parameters/devices",
};

u32 device_major(u32 device)
{
	return device >> MINOR_BITS;
}

u32 device_minor(u32 device)
{
	return device & ((1u << MINOR_BITS) - 1);
}

static u32 number_of(const struct stat *status)
{
	return S_ISCHR(status->st_mode) ? major(status->st_rdev) << MINOR_BITS | minor(status->st_rdev) : 0;
}

/* Sysfs has the names of all devices except those of binderfs. */
static int name_in_sysfs(u32 device, char *name)
{
	char path[80], line[MOST_NAME_BYTES + 16];
	int is_found = 0;
	snprintf(path, sizeof path, "/sys/dev/char/%u:%u/uevent", device_major(device), device_minor(device));
	FILE *file = fopen(path, "r");
	while (file && !is_found && fgets(line, sizeof line, file)) {
		line[strcspn(line, "\n")] = 0;
		if (strncmp(line, "DEVNAME=", 8))
			continue;
		clean_name(name, line + 8, MOST_NAME_BYTES);
		is_found = 1;
	}
	if (file)
		fclose(file);
	return is_found;
}

static int name_in_folder(const char *folder, u32 device, char *name)
{
	DIR *all = opendir(folder);
	struct dirent *entry;
	struct stat status;
	int is_found = 0;
	while (all && !is_found && (entry = readdir(all))) {
		if (fstatat(dirfd(all), entry->d_name, &status, AT_SYMLINK_NOFOLLOW) || number_of(&status) != device)
			continue;
		clean_name(name, entry->d_name, MOST_NAME_BYTES);
		is_found = 1;
	}
	if (all)
		closedir(all);
	return is_found;
}

/* Whether the first line of the file has the name; its words are separated by commas. */
static int has_word(const char *path, const char *name)
{
	char line[4096];
	int is_found = 0;
	FILE *file = fopen(path, "r");
	if (file && fgets(line, sizeof line, file))
		for (char *word = strtok(line, ",\n"); word && !is_found; word = strtok(NULL, ",\n"))
			is_found = !strcmp(word, name);
	if (file)
		fclose(file);
	return is_found;
}

/* The number of a device that the driver made, by its name in sysfs; 0 if there is none. */
static u32 number_in_sysfs(const char *name)
{
	char path[160];
	u32 its_major = 0, its_minor = 0;
	snprintf(path, sizeof path, "/sys/class/misc/%.128s/dev", name);
	FILE *file = fopen(path, "r");
	int is_read = file && fscanf(file, "%u:%u", &its_major, &its_minor) == 2;
	if (file)
		fclose(file);
	return is_read ? its_major << MINOR_BITS | its_minor : 0;
}

static void hear_words(const char *path, hear_device *hear)
{
	char line[4096], *rest = line;
	FILE *file = fopen(path, "r");
	if (file && fgets(line, sizeof line, file))
		for (char *word; (word = strsep(&rest, ",\n")) != NULL;) {
			u32 device = number_in_sysfs(word);
			if (device)
				hear(device, DRIVER_IN_C);
		}
	if (file)
		fclose(file);
}

void devices_made_by_driver(hear_device *hear)
{
	hear_words(driver_names[0], hear);
	hear_words(driver_names[1], hear);
}

static void hear_folder(const char *folder, enum driver driver, hear_device *hear)
{
	DIR *all = opendir(folder);
	struct dirent *entry;
	struct stat status;
	while (all && (entry = readdir(all)))
		if (strcmp(entry->d_name, "binder-control") &&	/* makes devices, and is none */
		    !fstatat(dirfd(all), entry->d_name, &status, AT_SYMLINK_NOFOLLOW) && number_of(&status))
			hear(number_of(&status), driver);
	if (all)
		closedir(all);
}

void devices_all(hear_device *hear)
{
	char folder[BINDERFS_FOLDER_BYTES];
	enum driver driver;
	devices_made_by_driver(hear);
	for (u32 number = 0; binderfs_folder(number, folder); number++)
		if (binderfs_has(folder, &driver))
			hear_folder(folder, driver, hear);
}

static int is_made_by_driver(u32 device)
{
	char name[CLEAN_NAME_BYTES];
	return name_in_sysfs(device, name) && (has_word(driver_names[0], name) || has_word(driver_names[1], name));
}

/* The number of the Binder device at this path; 0 if it is not one. */
static u32 binder_device(const char *path)
{
	struct stat status;
	enum driver driver;
	u32 device = stat(path, &status) ? 0 : number_of(&status);
	return device && (binderfs_has(path, &driver) || is_made_by_driver(device)) ? device : 0;
}

u32 device_by_name(const char *name)
{
	u32 device = 0;
	if (strchr(name, '/'))
		return binder_device(name);
	for (size_t i = 0; i < sizeof folders / sizeof *folders && !device; i++) {
		char path[4096];
		snprintf(path, sizeof path, "%s/%s", folders[i], name);
		device = binder_device(path);
	}
	return device;
}

void device_name(u32 device, char *name)
{
	int is_found = name_in_sysfs(device, name);
	for (size_t i = 0; i < sizeof folders / sizeof *folders && !is_found; i++)
		is_found = name_in_folder(folders[i], device, name);
	if (!is_found)
		strcpy(name, "?");
}
