#ifndef RECORDER_SHELL_WORD_H
#define RECORDER_SHELL_WORD_H
#include "common.h"

/* Writes the word as a shell takes it: with quotes, if it needs some. */
void shell_word(char *to, u64 room, const char *word);
#endif
