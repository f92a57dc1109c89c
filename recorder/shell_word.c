#define _GNU_SOURCE
#include "shell_word.h"
#include <stdio.h>
#include <string.h>

void shell_word(char *to, u64 room, const char *word)
{
	static const char plain[] = "ABCDEFGHIJKLMNOPQRSTUVWXYZabcdefghijklmnopqrstuvwxyz0123456789_./,:+@%-";
	const char *end = to + room - 6;	/* leaves room for one more quote in the word, and for the last one */
	if (!word[strspn(word, plain)]) {
		snprintf(to, room, "%s", word);
		return;
	}
	*to++ = '\'';
	for (; *word && to < end; word++) {
		if (*word == '\'')
			to = stpcpy(to, "'\\'");
		*to++ = *word;
	}
	strcpy(to, "'");
}
