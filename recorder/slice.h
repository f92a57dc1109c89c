/* A slice of some long work. Between two of them the ring is emptied. */
#ifndef RECORDER_SLICE_H
#define RECORDER_SLICE_H

void slice_begin(void);
/* Whether the slice has taken as long as it may. */
int slice_is_over(void);
#endif
