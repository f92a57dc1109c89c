/* What all files of the loader use. */
#ifndef RECORDER_COMMON_H
#define RECORDER_COMMON_H
#include <stdarg.h>
#include <stddef.h>
#include <stdint.h>

typedef uint8_t u8;
typedef uint32_t u32;
typedef uint64_t u64;

/* Writes a line to standard error, after `record: `. */
void complain(const char *format, ...) __attribute__((format(printf, 1, 2)));
void complain_with(const char *format, va_list arguments);
/* Does the same, and ends the program with status 1. */
void fail(const char *format, ...) __attribute__((format(printf, 1, 2), noreturn));
/* Does the same with status 64: a word of the command line is wrong. */
void refuse(const char *format, ...) __attribute__((format(printf, 1, 2), noreturn));
/* Return memory, or end the program with status 1. They never return NULL. */
void *allocate(size_t bytes);
void *resize(void *memory, size_t bytes);
/* Nanoseconds of CLOCK_MONOTONIC, which the BPF program uses too. */
u64 now(void);
/* Loads a little-endian number of a capture. */
u32 load_u32(const u8 *from);
#endif
