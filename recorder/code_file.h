/* What a file that has code says of it: what it is called by, and how its symbols count addresses. */
#ifndef RECORDER_CODE_FILE_H
#define RECORDER_CODE_FILE_H
#include "common.h"

#define MOST_BUILD_ID 32u
#define MOST_SEGMENTS 8u

struct code_file {
	u8 build_id[MOST_BUILD_ID];
	u32 build_id_bytes;		/* 0 if it has none */
	u32 segment_count;
	struct segment {
		u64 offset, bytes, address;	/* in the file; as its symbols count */
	} segments[MOST_SEGMENTS];	/* those with code */
};

/* Reads an open ELF file. What it does not have, or is damaged, is left out. */
struct code_file code_file_read(int file);
/* The address that symbols count for this place in the file, where so many bytes are mapped. Returns 0 if there is
 * none. */
int code_file_address(const struct code_file *file, u64 offset, u64 bytes, u64 *address);
#endif
