#define _GNU_SOURCE
#include "file.h"
#include <errno.h>
#include <fcntl.h>
#include <limits.h>
#include <stdio.h>
#include <stdlib.h>
#include <string.h>
#include <sys/uio.h>
#include <unistd.h>

int file_create(struct file *file, const char *path)
{
	*file = (struct file){ .descriptor = -1 };
	snprintf(file->path, sizeof file->path, "%s", path);
	file->descriptor = open(path, O_WRONLY | O_CREAT | O_EXCL | O_CLOEXEC, 0600);
	return file->descriptor < 0 ? errno : 0;
}

void file_add(struct file *file, const void *bytes, u64 count)
{
	if (file->descriptor < 0 || file->error)
		return;
	if (file->waiting_bytes + count > file->room) {
		file->room = (file->waiting_bytes + count) * 2;
		file->waiting = resize(file->waiting, file->room);
	}
	memcpy(file->waiting + file->waiting_bytes, bytes, count);
	file->waiting_bytes += count;
	file->bytes += count;
}

void file_lend(struct file *file, const void *bytes, u64 count)
{
	if (file->descriptor < 0 || file->error)
		return;
	if (file->lent_count == file->lent_room) {
		file->lent_room = file->lent_room ? 2 * file->lent_room : 64;
		file->lent = resize(file->lent, file->lent_room * sizeof *file->lent);
	}
	file->lent[file->lent_count++] = (struct lent_bytes){ file->waiting_bytes, bytes, count };
	file->lent_bytes += count;
	file->bytes += count;
}

static void forget_waiting(struct file *file)
{
	file->waiting_bytes = file->lent_bytes = 0;
	file->lent_count = 0;
}

void file_drop(struct file *file, int error)
{
	file->error = error;
	file->bytes = file->whole;
	forget_waiting(file);
}

/* After a failed write the file ends where the last flush ended, so that no frame in it is cut. */
static int cut_off(struct file *file, int error)
{
	file_drop(file, error);
	if (ftruncate(file->descriptor, (off_t)file->whole))
		file->error = errno;
	return file->error;
}

static struct iovec *put_piece(struct iovec *to, const void *bytes, u64 count)
{
	*to = (struct iovec){ (void *)bytes, count };
	return to + (count != 0);
}

/* Fills in all that waits, in order. Returns where that ends. */
static struct iovec *put_pieces(const struct file *file, struct iovec *to)
{
	u64 own = 0;
	for (u32 i = 0; i < file->lent_count; i++) {
		const struct lent_bytes *lent = file->lent + i;
		to = put_piece(to, file->waiting + own, lent->before - own);
		to = put_piece(to, lent->bytes, lent->count);
		own = lent->before;
	}
	return put_piece(to, file->waiting + own, file->waiting_bytes - own);
}

/* Passes over so many bytes. Returns the piece with which the rest begins. */
static struct iovec *rest_of(struct iovec *piece, u64 written)
{
	for (; written && piece->iov_len <= written; piece++)
		written -= piece->iov_len;
	if (written) {
		piece->iov_base = (u8 *)piece->iov_base + written;
		piece->iov_len -= written;
	}
	return piece;
}

/* Hands the pieces over. Returns 0, or an errno. */
static int write_pieces(int descriptor, struct iovec *next, const struct iovec *end)
{
	while (next < end) {
		int many = end - next < IOV_MAX ? (int)(end - next) : IOV_MAX;
		ssize_t count = writev(descriptor, next, many);
		if (count < 0 && errno == EINTR)
			continue;
		if (count <= 0)
			return count < 0 ? errno : ENOSPC;
		next = rest_of(next, (u64)count);
	}
	return 0;
}

int file_flush(struct file *file)
{
	if (file->descriptor < 0 || file->error)
		return file->error;
	struct iovec one, *pieces = &one;
	if (file->lent_count)
		pieces = allocate((2 * file->lent_count + 1) * sizeof *pieces);
	int error = write_pieces(file->descriptor, pieces, put_pieces(file, pieces));
	if (pieces != &one)
		free(pieces);
	if (error)
		return cut_off(file, error);
	file->whole += file->waiting_bytes + file->lent_bytes;
	forget_waiting(file);
	return 0;
}

static void let_go(struct file *file)
{
	free(file->waiting);
	free(file->lent);
	file->waiting = NULL;
	file->lent = NULL;
	file->room = 0;
	file->lent_room = 0;
	file->descriptor = -1;
}

int file_close(struct file *file)
{
	int error = file_flush(file);
	if (file->descriptor >= 0 && close(file->descriptor) && !error)
		error = errno;
	let_go(file);
	return error;
}

void file_remove(struct file *file)
{
	if (file->descriptor < 0)
		return;
	close(file->descriptor);
	unlink(file->path);
	let_go(file);
}
