/* Oneway calls: whose each is, and how much of a process's async space they take. A delivery does not tell who sent it, so
 * it is put together with the oldest send that looks the same, by code, sizes and the first bytes of the data. What this
 * says is for a look, and no evidence. It works on what open_calls.h knows. */
#ifndef RECORDER_ONEWAYS_H
#define RECORDER_ONEWAYS_H
#include "codes.h"
#include "frame.h"
#include "open_calls.h"

/* A thread sends a oneway call, by this record of the frame. It takes room with who gets it, as far as that is known. */
void oneways_sent(const struct frame *frame, u32 record, const struct binder_transaction_data *data);
/* A thread gets one. Returns the number of the process that sent it, plus 1; 0 if that is not known. */
u64 oneways_delivered(const struct frame *frame, u32 record, const struct binder_transaction_data *data);
/* The driver refused the send at this place. */
void oneways_refused(u64 number, u32 record);
/* Those that nobody has got yet, and that are for somebody who is not known. */
struct oneways_unknown {
	u64 count, bytes;
};
struct oneways_unknown oneways_unknown(void);
/* A process frees a buffer: that of a oneway call takes no room any more. */
void oneways_freed(const struct who *who, u64 address);
#endif
