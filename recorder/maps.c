#define _GNU_SOURCE
#include "maps.h"
#include "process.h"
#include "table.h"
#include <fcntl.h>
#include <stdio.h>
#include <stdlib.h>
#include <string.h>
#include <sys/stat.h>
#include <unistd.h>

#define MOST_OF_PROCESS 4096u	/* the most maps of a process that are read */
#define MOST_FILES 16384u	/* the most files that are remembered; of others only the addresses are */
#define LONGEST_PATH 1024u

static struct worker worker = WORKER;

/* What only the reading thread has. */
static struct table files;		/* by number and device: the address of what is kept of the file */
static const struct mapped_file *last_file;
static u32 file_count;

/* ---- one process */

/* A line of /proc/PID/maps. */
struct line {
	u64 start, end, offset, number;
	u32 major, minor;
	const char *path;
};

static int read_line(struct line *line, char *text)
{
	unsigned long long start, end, offset, number;
	char rights[5];
	int at = 0;
	if (sscanf(text, "%llx-%llx %4s %llx %x:%x %llu %n", &start, &end, rights, &offset, &line->major, &line->minor,
		   &number, &at) != 7 || !at || strlen(rights) < 3 || rights[2] != 'x')
		return 0;
	text[strcspn(text, "\n")] = 0;
	line->start = start;
	line->end = end;
	line->offset = offset;
	line->number = number;
	line->path = text + at;
	return 1;
}

/* Opens a file only to look at it: a device or a FIFO does not notice that. */
static int open_to_look(const char *path, struct stat *status)
{
	int file = open(path, O_PATH | O_CLOEXEC);
	if (file >= 0 && !fstat(file, status))
		return file;
	if (file >= 0)
		close(file);
	return -1;
}

/* Opens for reading what was opened to be looked at, whatever its path leads to by now. Only files are read. */
static int open_looked_at(int file, const struct stat *status)
{
	char path[64];
	snprintf(path, sizeof path, "/proc/self/fd/%d", file);
	int opened = S_ISREG(status->st_mode) ? open(path, O_RDONLY | O_CLOEXEC) : -1;
	close(file);
	return opened;
}

/* Opens what is mapped there: also if its path leads to another file by now. */
static int open_mapped(u32 process, const struct line *line, struct stat *status)
{
	char path[LONGEST_PATH + 64];
	snprintf(path, sizeof path, "/proc/%u/map_files/%llx-%llx", process, (unsigned long long)line->start,
		 (unsigned long long)line->end);
	int file = open_to_look(path, status);
	if (file >= 0)
		return open_looked_at(file, status);
	snprintf(path, sizeof path, "/proc/%u/root%s", process, line->path);
	file = open_to_look(path, status);
	if (file >= 0 && status->st_ino == line->number)
		return open_looked_at(file, status);
	if (file >= 0)
		close(file);
	return -1;
}

static struct mapped_file *new_file(const char *path)
{
	u64 length = strnlen(path, LONGEST_PATH);
	struct mapped_file *file = allocate(sizeof *file + length + 1);
	memcpy(file->path, path, length);
	file->before = last_file;
	last_file = file;
	file_count++;
	return file;
}

/* The file that is mapped there, read if it is new or has changed; NULL if there is none, or it is one too many. */
static const struct mapped_file *read_file(u32 process, const struct line *line)
{
	struct stat status = { 0 };
	int descriptor = open_mapped(process, line, &status);
	u64 changed = (u64)status.st_mtim.tv_sec * 1000000000u + (u64)status.st_mtim.tv_nsec;
	u32 device = line->major << 20 ^ line->minor;
	u64 *place = table_find(&files, line->number, device);
	struct mapped_file *file = place ? (struct mapped_file *)(uintptr_t)*place : NULL;
	if ((!file || file->changed != changed) && file_count < MOST_FILES) {
		file = new_file(line->path);
		file->changed = changed;
		if (descriptor >= 0)
			file->code = code_file_read(descriptor);
		*table_make(&files, line->number, device) = (u64)(uintptr_t)file;
	}
	if (descriptor >= 0)
		close(descriptor);
	return file && file->changed == changed ? file : NULL;
}

/* Only files have a number. */
static const struct mapped_file *file_of(u32 process, const struct line *line)
{
	static struct mapped_file *vdso;
	if (line->number)
		return read_file(process, line);
	if (strcmp(line->path, "[vdso]"))
		return NULL;
	return vdso ? vdso : (vdso = new_file(line->path));
}

static void read_maps(struct maps_answer *answer, FILE *file)
{
	char *text = NULL;
	size_t room = 0;
	struct line line;
	while (answer->count < MOST_OF_PROCESS && getline(&text, &room, file) > 0) {
		if (!read_line(&line, text))
			continue;
		if (!(answer->count & (answer->count - 1)))
			answer->maps = resize(answer->maps,
					      (answer->count ? 2 * answer->count : 1) * sizeof *answer->maps);
		answer->maps[answer->count++] =
			(struct map){ line.start, line.end, line.offset, file_of(answer->process, &line), 0, 0 };
	}
	free(text);
}

static void read_process(struct job *job)
{
	struct maps_answer *answer = (struct maps_answer *)job;
	char path[64];
	snprintf(path, sizeof path, "/proc/%u/maps", answer->process);
	FILE *file = process_is(answer->process, answer->start) ? fopen(path, "r") : NULL;
	if (file)
		read_maps(answer, file);
	if (file)
		fclose(file);
	if (!file || !process_is(answer->process, answer->start)) {	/* what was read may be another process's */
		answer->why = "ended";
		answer->count = 0;
	} else if (!answer->count) {
		answer->why = "unreadable";
	}
}

/* ---- requests and answers */

int maps_ask(u32 memory, u32 process, u64 start)
{
	struct maps_answer *answer = allocate(sizeof *answer);
	*answer = (struct maps_answer){ .job = { .work = read_process }, .memory = memory, .process = process,
					.start = start };
	int is_asked = worker_ask(&worker, &answer->job);
	if (!is_asked)
		free(answer);
	return is_asked;
}

struct maps_answer *maps_take(void)
{
	return (struct maps_answer *)worker_take(&worker);
}

void maps_free(struct maps_answer *answer)
{
	free(answer->maps);
	free(answer);
}

u32 maps_awaited(void)
{
	return worker.awaited;
}
