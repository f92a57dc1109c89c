#define _GNU_SOURCE
#include "kept_set.h"
#include <dirent.h>
#include <errno.h>
#include <fcntl.h>
#include <stdio.h>
#include <stdlib.h>
#include <string.h>
#include <sys/stat.h>
#include <sys/statvfs.h>
#include <time.h>
#include <unistd.h>

#define UNFINISHED ".keeping"
#define FINISHED ".kept-"
#define LONGEST_PATH 4096u
#define PIECE 65536u
#define MOST_ALIKE 100u			/* sets whose names have the same second */

/* Where the set is put together: the folder of OUT, the last part of OUT, and the folder of the set. */
struct place {
	int parent, folder;
	const char *base;
};

/* ---- words and names */

static int failed(struct kept_set *set, const char *what, int error)
{
	snprintf(set->failure, sizeof set->failure, "%s%s: %s", set->out, what, strerror(error));
	return 0;
}

static const char *base_of(const char *out)
{
	const char *slash = strrchr(out, '/');
	return slash ? slash + 1 : out;
}

static void path_of(const struct kept_set *set, const char *ending, char *to)
{
	snprintf(to, LONGEST_PATH, "%s%s", set->out, ending);
}

static int open_parent(const char *out)
{
	char path[LONGEST_PATH];
	snprintf(path, sizeof path, "%.*s", (int)(base_of(out) - out), out);
	return open(*path ? path : ".", O_RDONLY | O_DIRECTORY | O_CLOEXEC);
}

static void close_place(struct place *place)
{
	if (place->folder >= 0)
		close(place->folder);
	if (place->parent >= 0)
		close(place->parent);
}

/* Opens both folders. Returns 0, or an errno. */
static int open_place(const struct kept_set *set, struct place *place)
{
	char path[LONGEST_PATH];
	path_of(set, UNFINISHED, path);
	*place = (struct place){ open_parent(set->out), open(path, O_RDONLY | O_DIRECTORY | O_NOFOLLOW | O_CLOEXEC),
				 base_of(set->out) };
	int error = place->parent < 0 || place->folder < 0 ? errno : 0;
	if (error)
		close_place(place);
	return error;
}

const char *kept_set_in_the_way(const char *out)
{
	static char path[LONGEST_PATH];
	struct stat status;
	snprintf(path, sizeof path, "%s" UNFINISHED, out);
	return lstat(path, &status) ? NULL : path;
}

/* ---- whether there is room */

static u32 count_sets(const char *out)
{
	const char *base = base_of(out);
	size_t length = strlen(base);
	int parent = open_parent(out);
	DIR *folder = parent < 0 ? NULL : fdopendir(parent);
	u32 count = 0;
	for (const struct dirent *entry; folder && (entry = readdir(folder));)
		count += !strncmp(entry->d_name, base, length) &&
			 !strncmp(entry->d_name + length, FINISHED, sizeof FINISHED - 1);
	if (folder)
		closedir(folder);
	else if (parent >= 0)
		close(parent);
	return count;
}

static int has_room(struct kept_set *set)
{
	struct statvfs space;
	int parent = open_parent(set->out), is_known = parent >= 0 && !fstatvfs(parent, &space);
	u64 bytes = is_known ? (u64)space.f_bavail * space.f_frsize : 0;
	if (parent >= 0)
		close(parent);
	u32 sets = count_sets(set->out);
	if (sets >= set->most)
		snprintf(set->failure, sizeof set->failure, "%u sets are kept, and --keep-most allows %u: move one away",
			 sets, set->most);
	else if (is_known && space.f_blocks && bytes < set->needed)
		snprintf(set->failure, sizeof set->failure, "the disk has %llu bytes free, and the files that are recorded"
			 " next can take %llu", (unsigned long long)bytes, (unsigned long long)set->needed);
	else
		return 1;
	return 0;
}

int kept_set_begin(struct kept_set *set)
{
	char path[LONGEST_PATH], out[2 * LONGEST_PATH];
	if (!has_room(set))
		return 0;
	if (strlen(set->out) + strlen(base_of(set->out)) + 64 > LONGEST_PATH)
		return failed(set, UNFINISHED, ENAMETOOLONG);
	path_of(set, UNFINISHED, path);
	if (mkdir(path, 0700))
		return failed(set, UNFINISHED, errno);
	snprintf(out, sizeof out, "%s/%s", path, base_of(set->out));
	int error = books_copy_kept(out, set->copies, &set->copy_count);
	if (!error)
		return 1;
	kept_set_drop(set);
	return failed(set, UNFINISHED, error);
}

/* ---- the files */

/* Hands so many bytes to the system. Returns 0, or an errno. */
static int write_all(int to, const char *bytes, size_t count)
{
	while (count) {
		ssize_t written = write(to, bytes, count);
		if (written < 0 && errno == EINTR)
			continue;
		if (written <= 0)
			return written < 0 ? errno : ENOSPC;
		bytes += written;
		count -= (size_t)written;
	}
	return 0;
}

static int copy_bytes(int from, int to)
{
	char piece[PIECE];
	ssize_t count;
	int error = 0;
	while (!error && (count = read(from, piece, sizeof piece)) != 0)
		if (count > 0)
			error = write_all(to, piece, (size_t)count);
		else if (errno != EINTR)
			error = errno;
	return error;
}

/* Whether a copy of the file leaves the room that the recording needs: it must not end for want of that. */
static int has_room_for_copy(const struct kept_set *set, int from)
{
	struct statvfs space;
	struct stat status;
	return fstatvfs(from, &space) || fstat(from, &status) || !space.f_blocks ||
	       (u64)space.f_bavail * space.f_frsize >= set->needed + (u64)status.st_size;
}

/* Copies a file into the set, with these bytes behind it. Returns 0, or an errno. */
static int copy_file(const struct kept_set *set, const struct place *place, const char *name, const char *behind)
{
	int from = openat(place->parent, name, O_RDONLY | O_NOFOLLOW | O_CLOEXEC);
	int has_room = from >= 0 && has_room_for_copy(set, from);
	int to = has_room ? openat(place->folder, name, O_WRONLY | O_CREAT | O_EXCL | O_CLOEXEC, 0600) : -1;
	int error = from >= 0 && !has_room ? ENOSPC : to < 0 ? errno : copy_bytes(from, to);
	if (!error)
		error = write_all(to, behind, strlen(behind));
	if (to >= 0 && close(to) && !error)
		error = errno;
	if (from >= 0)
		close(from);
	return error;
}

/* File systems without a second name say so in several ways. */
static int put_file(const struct kept_set *set, const struct place *place, const char *name)
{
	return linkat(place->parent, name, place->folder, name, 0) ? copy_file(set, place, name, "") : 0;
}

/* Copies of the books of the beginning belong to the first file. They may not be there. */
static void put_beginning(const struct kept_set *set, const struct place *place)
{
	char name[NAME_MAX + 1], ending[64];
	for (u32 i = 0; books_begin_name(i, ending, sizeof ending); i++) {
		snprintf(name, sizeof name, "%s%s", place->base, ending);
		if (!faccessat(place->parent, name, F_OK, AT_SYMLINK_NOFOLLOW))
			(void)put_file(set, place, name);
	}
}

static int put_number(const struct kept_set *set, const struct place *place, u32 number, int is_last, char *name)
{
	snprintf(name, NAME_MAX + 1, "%s-%u.cap", place->base, number);
	int error = put_file(set, place, name);
	if (error)
		return error;
	snprintf(name, NAME_MAX + 1, "%s-%u.side", place->base, number);
	return is_last ? copy_file(set, place, name, set->last_lines) : put_file(set, place, name);
}

int kept_set_gather(struct kept_set *set)
{
	char name[NAME_MAX + 1] = "", what[2 * NAME_MAX];
	struct place place;
	int error = open_place(set, &place);
	if (!error) {
		for (u32 i = 0; i < set->count && !error; i++)
			error = put_number(set, &place, set->numbers[i], i + 1 == set->count, name);
		if (!error && set->numbers[0] == 1)
			put_beginning(set, &place);
		close_place(&place);
	}
	if (!error)
		return 1;
	kept_set_drop(set);
	snprintf(what, sizeof what, UNFINISHED "/%s", name);
	return failed(set, what, error);
}

/* Calls `each` for all files of the set, as long as it returns 0. Returns that, or an errno. */
static int for_files(const struct place *place, int (*each)(int folder, const char *name, u64 *bytes), u64 *bytes)
{
	int copy = dup(place->folder), error = 0;
	DIR *folder = copy < 0 ? NULL : fdopendir(copy);
	if (!folder)
		return errno;
	rewinddir(folder);
	for (const struct dirent *entry; !error && (entry = readdir(folder));)
		if (strcmp(entry->d_name, ".") && strcmp(entry->d_name, ".."))
			error = each(place->folder, entry->d_name, bytes);
	closedir(folder);
	return error;
}

static int is_no_error(int error)
{
	return error == EINVAL || error == EROFS;	/* a file system that has nothing to wait for */
}

/* Waits until a file is on the disk, and adds its size. */
static int secure(int folder, const char *name, u64 *bytes)
{
	struct stat status;
	int file = openat(folder, name, O_RDONLY | O_NOFOLLOW | O_CLOEXEC);
	int error = file < 0 || fstat(file, &status) || (fsync(file) && !is_no_error(errno)) ? errno : 0;
	if (!error)
		*bytes += (u64)status.st_size;
	if (file >= 0)
		close(file);
	return error;
}

static int secure_folder(int folder)
{
	return fsync(folder) && !is_no_error(errno) ? errno : 0;
}

static void choose_name(struct kept_set *set)
{
	char time_text[24], path[LONGEST_PATH];
	struct stat status;
	struct tm parts;
	time_t wall = time(NULL);
	strftime(time_text, sizeof time_text, "%Y%m%dT%H%M%SZ", gmtime_r(&wall, &parts));
	snprintf(set->name, sizeof set->name, FINISHED "%s", time_text);
	path_of(set, set->name, path);
	for (u32 other = 2; !lstat(path, &status) && other < MOST_ALIKE; other++) {
		snprintf(set->name, sizeof set->name, FINISHED "%s-%u", time_text, other);
		path_of(set, set->name, path);
	}
}

int kept_set_end(struct kept_set *set)
{
	char from[LONGEST_PATH], to[LONGEST_PATH];
	struct place place;
	int error = open_place(set, &place);
	if (!error) {
		error = for_files(&place, secure, &set->bytes);
		if (!error)
			error = secure_folder(place.folder);
		choose_name(set);
		path_of(set, UNFINISHED, from);
		path_of(set, set->name, to);
		if (!error && rename(from, to))
			error = errno;
		if (!error)
			(void)secure_folder(place.parent);
		close_place(&place);
	}
	if (!error)
		return 1;
	kept_set_drop(set);
	return failed(set, UNFINISHED, error);
}

static int remove_one(int folder, const char *name, u64 *bytes)
{
	(void)bytes;
	(void)unlinkat(folder, name, 0);
	return 0;
}

void kept_set_drop(struct kept_set *set)
{
	char path[LONGEST_PATH];
	struct place place;
	if (open_place(set, &place))
		return;
	(void)for_files(&place, remove_one, NULL);
	close_place(&place);
	path_of(set, UNFINISHED, path);
	(void)rmdir(path);
}

void kept_set_path(const struct kept_set *set, char *to, u64 room)
{
	snprintf(to, room, "%s%s", set->out, set->name);
}
