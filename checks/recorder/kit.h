/* What the programs that check the recorder's loader share. */
#ifndef KIT_H
#define KIT_H
#include "common.h"
#include "ring.h"
#include <stdio.h>

extern int failed;			/* whether something did not hold */
void should(int is_so, const char *what, double value);	/* says what does not hold, and what came */
double processor_seconds(void);
double mebibytes(void);			/* the most memory so far */
u64 own_start(void);			/* when this process began, as the kernel counts it */

void *all_of(FILE *, u64 *bytes);	/* what is left of a file, and a NUL behind it */
void *whole_file(const char *path, u64 *bytes);

/* The newest side list, as it was when it was read last. */
extern char *list;
void read_side_list(void);			/* with all that was told by now */
int times(const char *text);		/* how often it has the text */

/* A ring that no program in the kernel fills. It begins anew each time that it is empty. */
struct made_ring {
	struct ring ring;
	u8 *bytes;
	u64 taken, put;
};

void made_ring_begin(struct made_ring *, u64 size);
/* Puts a message into it, with so many bytes behind that: these, or whatever is there if `more` is NULL. */
void made_ring_put(struct made_ring *, const void *message, u64 bytes, const void *more, u64 count);
/* Hands all that is in it to the window, as main.c does. */
void made_ring_take(struct made_ring *);
#endif
