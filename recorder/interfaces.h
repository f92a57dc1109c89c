/* The interfaces that calls name at the beginning of their data, numbered as they come. */
#ifndef RECORDER_INTERFACES_H
#define RECORDER_INTERFACES_H
#include "frame.h"

/* The number of the interface that the transaction at this place of the frame's commands names; 0 if it names none, or
 * too many others came before. */
u32 interface_of(const struct frame *frame, u32 record);
/* Its name without the package, at most INTERFACE_BYTES with the NUL; "-" of 0. Only letters, digits, _ $ . @ : are in it. */
#define INTERFACE_BYTES 64u
const char *interface_name(u32 interface);
#endif
