/* Frames of callers that are made up, as the recorder's programs in the kernel hand them over. */
#ifndef MADE_FRAME_H
#define MADE_FRAME_H
#include "common.h"
#include "messages.h"
#include "names.h"
#include <linux/android/binder.h>

enum { RECORD = 4 + sizeof(struct binder_transaction_data) };	/* bytes of a send, or of an answer */

typedef void hearer(const void *message, u64 bytes);

struct message head_of(u32 type, u32 direction, u64 number, u32 opening, u32 thread);

/* A process that began then, with an opening, and its first thread, which has the number of the opening. */
void made_process(u32 opening, u32 process, u64 start, const char *name, enum met met);
/* An opening from the beginning, and a thread. */
void made_opening(u32 opening, u32 process, const char *name);
void made_thread(u32 thread, u32 id, u32 process, const char *name);

/* A record of the next frame; without a payload it has zeros there. */
void made_record(u32 word, const void *payload, u32 bytes);
void made_code(u32 word);
void made_send(u32 word, struct binder_transaction_data data);

/* The next frame, with so many bytes of data of its last record: behind the commands if they are few, else in pieces,
 * of a read before the commands. Returns how many bytes of commands it has. */
u32 made_begun(hearer *hear, struct message head, const void *data, u32 bytes);
/* What else is told, in as many words. */
void made_event(hearer *hear, struct message head, u64 first, u64 second, u64 third);
/* The driver is through with a write, of which it took so many bytes. */
void made_written(hearer *hear, struct message head, u64 bytes);
/* Both. */
void made_frame(hearer *hear, struct message head, const void *data, u32 bytes);
#endif
