#include "code_file.h"
#include <elf.h>
#include <stdlib.h>
#include <string.h>
#include <unistd.h>

#define MOST_HEADERS 512u
#define MOST_NOTES 65536u	/* the most bytes of a segment of notes that are read */
#define LARGEST (1ull << 62)

static int read_at(int file, void *to, u64 bytes, u64 at)
{
	return at < LARGEST && pread(file, to, bytes, (off_t)at) == (ssize_t)bytes;
}

/* Reads the header, and what of it this file needs, as that of a 64-bit file. Returns 0 if there is none. */
static int read_head(int file, Elf64_Ehdr *head)
{
	Elf32_Ehdr small;
	if (!read_at(file, &small, sizeof small, 0) || memcmp(small.e_ident, ELFMAG, SELFMAG))
		return 0;
	if (small.e_ident[EI_DATA] != ELFDATA2LSB)
		return 0;
	if (small.e_ident[EI_CLASS] == ELFCLASS64)
		return read_at(file, head, sizeof *head, 0) && head->e_phentsize == sizeof(Elf64_Phdr);
	memset(head, 0, sizeof *head);
	memcpy(head->e_ident, small.e_ident, EI_NIDENT);
	head->e_phoff = small.e_phoff;
	head->e_phnum = small.e_phnum;
	return small.e_ident[EI_CLASS] == ELFCLASS32 && small.e_phentsize == sizeof(Elf32_Phdr);
}

static int read_segment(int file, const Elf64_Ehdr *head, u32 which, Elf64_Phdr *segment)
{
	Elf32_Phdr small;
	if (head->e_phoff > LARGEST)
		return 0;
	if (head->e_ident[EI_CLASS] == ELFCLASS64)
		return read_at(file, segment, sizeof *segment, head->e_phoff + which * sizeof *segment);
	if (!read_at(file, &small, sizeof small, head->e_phoff + which * sizeof small))
		return 0;
	*segment = (Elf64_Phdr){ .p_type = small.p_type, .p_flags = small.p_flags, .p_offset = small.p_offset,
				 .p_vaddr = small.p_vaddr, .p_filesz = small.p_filesz, .p_align = small.p_align };
	return 1;
}

/* Looks for the build-id among notes: each is three numbers, a name and its data, both filled up to `align` bytes. */
static void find_build_id(struct code_file *found, const u8 *notes, u64 bytes, u64 align)
{
	for (u64 at = 0; bytes - at >= 12;) {
		u64 name = load_u32(notes + at), data = load_u32(notes + at + 4);
		u64 name_at = at + 12, data_at = (name_at + name + align - 1) & ~(align - 1);
		u64 next = (data_at + data + align - 1) & ~(align - 1);
		if (data_at + data > bytes)
			return;
		if (load_u32(notes + at + 8) == NT_GNU_BUILD_ID && name == 4 && !memcmp(notes + name_at, "GNU", 4) &&
		    data && data <= MOST_BUILD_ID) {
			memcpy(found->build_id, notes + data_at, data);
			found->build_id_bytes = (u32)data;
			return;
		}
		if (next > bytes)
			return;
		at = next;
	}
}

static void read_notes(int file, struct code_file *found, const Elf64_Phdr *segment)
{
	u64 bytes = segment->p_filesz < MOST_NOTES ? segment->p_filesz : MOST_NOTES;
	u8 *notes = allocate(bytes);
	if (read_at(file, notes, bytes, segment->p_offset))
		find_build_id(found, notes, bytes, segment->p_align == 8 ? 8 : 4);
	free(notes);
}

struct code_file code_file_read(int file)
{
	struct code_file found = { 0 };
	Elf64_Ehdr head;
	Elf64_Phdr segment;
	if (!read_head(file, &head))
		return found;
	for (u32 i = 0; i < head.e_phnum && i < MOST_HEADERS && read_segment(file, &head, i, &segment); i++) {
		if (segment.p_type == PT_NOTE && !found.build_id_bytes)
			read_notes(file, &found, &segment);
		if (segment.p_type == PT_LOAD && segment.p_flags & PF_X && found.segment_count < MOST_SEGMENTS)
			found.segments[found.segment_count++] =
				(struct segment){ segment.p_offset, segment.p_filesz, segment.p_vaddr };
	}
	return found;
}

/* Whether the segment has some of so many bytes of the file from `offset` on. */
static int is_in(const struct segment *segment, u64 offset, u64 bytes)
{
	if (offset < segment->offset)
		return segment->offset - offset < bytes;
	return offset - segment->offset < segment->bytes;
}

int code_file_address(const struct code_file *file, u64 offset, u64 bytes, u64 *address)
{
	for (u32 i = 0; i < file->segment_count; i++) {
		const struct segment *segment = file->segments + i;
		if (is_in(segment, offset, bytes)) {
			*address = segment->address - segment->offset + offset;
			return 1;
		}
	}
	return 0;
}
