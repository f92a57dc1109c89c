#define _GNU_SOURCE
#include "parts.h"
#include "begin.h"
#include "file.h"
#include "shell_word.h"
#include "side.h"
#include <errno.h>
#include <glob.h>
#include <stdio.h>
#include <stdlib.h>
#include <string.h>
#include <sys/stat.h>
#include <unistd.h>

static struct file part;
static const char *prefix;
static u64 most_bytes, bytes_before, bytes_removed;
static u64 *sizes;		/* by number, of the closed files; at the end also of the last one; 0: no file of ours */
static u32 count, first = 1;	/* the files from number `first` to number `count` are kept */
static u32 made, removed;	/* how many there were, and how many are not kept */
static u32 most_files;		/* 0: all are kept, and have one side list */
static int is_held;		/* no file is removed now */
static int is_begun = 1;	/* the first lines of the side list are there */
static u64 first_bytes;		/* so many bytes they have */
static int first_error, side_failed;	/* side_failed: that was an error of the side list */
static u64 frames_added, last_added, frames_whole, last_whole;

#define FLUSH_BYTES 65536u	/* copied, */
#define FLUSH_LENT 1048576u	/* or lent */
#define LONGEST_PATH 4096u
#define MOST_PASSED 65536u	/* numbers whose names others have taken, before a file */

/* Whether the path is the prefix, a dash, digits and .cap or .side. */
static int is_part(const char *path)
{
	const char *digits = path + strlen(prefix) + 1;
	size_t length = strspn(digits, "0123456789");
	return length && (!strcmp(digits + length, ".cap") || !strcmp(digits + length, ".side"));
}

static const char *find_part(const char *out)
{
	static char found[4096];
	char pattern[8192], *to = pattern;
	for (const char *from = out; *from && to < pattern + sizeof pattern - 16; from++) {
		if (strchr("*?[]\\", *from))
			*to++ = '\\';
		*to++ = *from;
	}
	strcpy(to, "-*");
	glob_t all;
	prefix = out;
	found[0] = 0;
	if (!glob(pattern, GLOB_NOSORT, NULL, &all)) {
		for (size_t i = 0; i < all.gl_pathc && !found[0]; i++)
			if (is_part(all.gl_pathv[i]))
				snprintf(found, sizeof found, "%s", all.gl_pathv[i]);
		globfree(&all);
	}
	return found[0] ? found : NULL;
}

const char *parts_in_the_way(const char *out)
{
	static char side[4200];
	struct stat status;
	const char *found = find_part(out);
	if (found)
		return found;
	snprintf(side, sizeof side, "%s.side", out);
	return lstat(side, &status) ? NULL : side;	/* not opened: that would wait for the other end of a FIFO */
}

static void add_number(u64 size)
{
	sizes = resize(sizes, (count + 1) * sizeof *sizes);
	sizes[count++] = size;
}

/* Creates the file of the next number, and with --files its side list. Returns 0, or an errno. */
static int create(void)
{
	static const u8 head[FILE_HEAD] = { 'B', 'N', 'D', 'R', 'C', 'A', 'P', '2', 8 };
	char path[4200];
	int error = most_files ? side_create(prefix, count + 1) : 0;
	side_failed = error != 0;
	if (error)
		return error;
	snprintf(path, sizeof path, "%s-%u.cap", prefix, count + 1);
	error = file_create(&part, path);
	if (error && most_files)
		side_remove();
	if (error)
		return error;
	add_number(FILE_HEAD);
	made++;
	file_add(&part, head, sizeof head);
	return file_flush(&part);
}

/* Creates the next file. Others may make names in the same folder meanwhile, and no file of theirs is replaced: a number
 * of which a name is there is passed over. */
static int create_next(void)
{
	char taken[4200] = "";
	u32 most = count + MOST_PASSED;
	int error;
	while ((error = create()) == EEXIST && count < most) {
		if (!taken[0])
			snprintf(taken, sizeof taken, "%s", parts_path());
		add_number(0);
	}
	if (!error && taken[0])
		complain("%s exists already, and is not overwritten: the next file is %s", taken, part.path);
	return error;
}

int parts_begin(const char *out, u64 most, u32 files)
{
	prefix = out;
	most_bytes = most;
	most_files = files;
	int error = files ? 0 : side_create(out, 0);
	side_failed = error != 0;
	if (!error)
		error = create();
	side_line(now(), "file 1");
	if (error)
		return error;
	error = side_flush();
	side_failed = error != 0;
	return error;
}

void parts_remove(void)
{
	file_remove(&part);
	side_remove();
}

int parts_have_room(u64 bytes)
{
	return bytes <= most_bytes - FILE_HEAD;
}

/* All frames that were added are in the files now. */
static void frames_are_whole(void)
{
	frames_whole = frames_added;
	last_whole = last_added;
}

int parts_flush(void)
{
	if (first_error)
		return first_error;
	first_error = side_flush();
	side_failed = first_error != 0;
	if (first_error)
		file_drop(&part, first_error);
	else
		first_error = file_flush(&part);
	if (!first_error)
		frames_are_whole();
	return first_error;
}

static void close_part(void)
{
	parts_flush();
	int error = file_close(&part);
	sizes[count - 1] = part.bytes;
	bytes_before += part.bytes;
	if (error && !first_error)
		first_error = error;
}

/* Removes a file of the recording. It may be gone already. Returns 0, or an errno. */
static int remove_part(u32 number, const char *ending)
{
	char path[4200];
	snprintf(path, sizeof path, "%s-%u.%s", prefix, number, ending);
	return unlink(path) && errno != ENOENT ? errno : 0;
}

/* Removes the oldest file and its side list. Returns 0, or an errno. */
static int remove_oldest(void)
{
	while (!sizes[first - 1])
		first++;
	int error = remove_part(first, "cap");
	int side_error = remove_part(first, "side");
	bytes_before -= sizes[first - 1];
	bytes_removed += sizes[first - 1];
	first++;
	removed++;
	return error ? error : side_error;
}

/* Removes files of --files until so many are left. If none was removed for a while, several may be due. */
static int remove_until(u32 left)
{
	int error = 0;
	while (!error && !is_held && parts_kept() > left)
		error = remove_oldest();
	return error;
}

/* Closes the side list of --files. The next one is for the next file. */
static int end_side(void)
{
	int error = remove_until(most_files - 1);
	if (error)
		return error;
	error = side_close();
	side_failed = error != 0;
	return error;
}

static void flush_side(void)
{
	if (!first_error)
		first_error = side_flush();
	side_failed = first_error != 0;
}

/* Begins the next file, with the frame of this number. */
static void begin_next(u64 number, u64 time)
{
	close_part();
	if (!first_error && most_files)
		first_error = end_side();
	if (!first_error)
		first_error = create_next();
	if (first_error)
		return;
	first_bytes = 0;
	if (most_files)
		begin_tell_again(number);
	is_begun = !most_files;
	side_line(time, "file %u", count);
	if (is_begun)
		flush_side();
}

/* Writes some more of the first lines of the side list, and at last what came meanwhile. They do not count for its size:
 * how many there are depends on what all processes do, and each file must have room for frames. */
static void go_on(void)
{
	is_begun = begin_tell_on();
	if (is_begun) {
		side_let_go();
		first_bytes = side_bytes();
	}
	flush_side();
}

/* Whether the file, or with --files its side list, is as long as it may be. */
static int is_full(u64 bytes)
{
	return part.bytes + bytes > most_bytes || (most_files && side_bytes() - first_bytes > most_bytes);
}

int parts_next_frame(u64 number, u64 time, u64 bytes)
{
	if (is_begun && is_full(bytes) && !first_error)
		begin_next(number, time);
	else if (part.waiting_bytes >= FLUSH_BYTES || part.lent_bytes >= FLUSH_LENT)
		parts_flush();
	if (!is_begun && !first_error)
		go_on();
	if (first_error)
		return first_error;
	if (!is_begun)
		return PARTS_LATER;
	frames_added++;
	last_added = number;
	return 0;
}

int parts_go_on(void)
{
	if (!is_begun && !first_error)
		go_on();
	return is_begun || first_error;
}

int parts_cut(u64 number, u64 time)
{
	if (!parts_go_on())
		return PARTS_LATER;
	if (!first_error)
		begin_next(number + 1, time);
	return first_error;
}

void parts_hold(void)
{
	is_held = 1;
}

void parts_let_go(void)
{
	is_held = 0;
	int error = remove_until(most_files);
	first_error = first_error ? first_error : error;
}

u32 parts_first(void)
{
	return first;
}

u32 parts_newest(void)
{
	return count;
}

u64 parts_size(u32 number)
{
	return number >= first && number <= count ? sizes[number - 1] : 0;
}

void parts_add(const void *bytes, u64 number)
{
	if (!first_error)
		file_add(&part, bytes, number);
}

void parts_lend(const void *bytes, u64 number)
{
	if (!first_error)
		file_lend(&part, bytes, number);
}

int parts_end(void)
{
	while (!parts_go_on())
		continue;
	if (part.descriptor >= 0)
		close_part();
	return first_error;
}

u64 parts_frames(void)
{
	return frames_whole;
}

u64 parts_last(void)
{
	return last_whole;
}

const char *parts_path(void)
{
	return side_failed ? side_path() : part.path;
}

u64 parts_written(void)
{
	return parts_bytes() + bytes_removed;
}

u64 parts_bytes(void)
{
	return bytes_before + (part.descriptor >= 0 ? part.bytes : 0);
}

u32 parts_count(void)
{
	return made;
}

u32 parts_kept(void)
{
	return made - removed;
}

/* Adds the names of files whose numbers follow each other. None is taken for an option. */
static u64 add_names(char *text, u64 room, u32 from, u32 to)
{
	static char out[4 * LONGEST_PATH];
	const char *here = prefix[0] == '-' ? "./" : "";
	int length;
	shell_word(out, sizeof out, prefix);
	if (from == to)
		length = snprintf(text, room, " %s%s-%u.cap", here, out, from);
	else
		length = snprintf(text, room, " %s%s-{%u..%u}.cap", here, out, from, to);
	return (u64)length < room ? (u64)length : room - 1;
}

static u64 add_command(char *text, u64 room, const char *audit, u32 from, u32 to)
{
	static char program[4 * LONGEST_PATH];
	shell_word(program, sizeof program, audit);
	int length = snprintf(text, room, "%s report", program);
	u64 used = (u64)length < room ? (u64)length : room - 1;
	for (u32 number = from, next; number <= to; number = next + 1) {
		for (next = number; next <= to && sizes[next - 1]; next++)
			continue;
		if (next > number)
			used += add_names(text + used, room - used, number, next - 1);
	}
	return used;
}

void parts_commands(const char *audit, char *text, u64 room)
{
	u64 used = 0;
	for (u32 from = first - 1, to; from < count; from = to) {
		u64 together = sizes[from];
		u32 files = sizes[from] != 0;
		for (to = from + 1; to < count && files < MOST_FILES_TOGETHER; to++) {
			if (together + sizes[to] > MOST_TOGETHER)
				break;
			together += sizes[to];
			files += sizes[to] != 0;
		}
		if (!files)
			continue;
		if (used && room - used < room / 4) {
			snprintf(text + used, room - used, "; and so on");
			return;
		}
		if (used)
			used += (u64)snprintf(text + used, room - used, "; then ");
		used += add_command(text + used, room - used, audit, from + 1, to);
	}
}
