/* An instruction of a program that tells the plugin of QEMU to write its counts. */
#ifndef MARK_H
#define MARK_H

#define MARK 0x123456789000ull	/* where it is */

void make_mark(void);		/* comes before the first mark */
extern void (*mark)(void);

#endif
