/* What the loader knows of openings and of threads: by the numbers that the programs in the kernel give them, and never
 * twice. What has ended is forgotten when no frame of it is to be written any more. */
#ifndef RECORDER_KNOWN_H
#define RECORDER_KNOWN_H
#include "common.h"
#include "link.h"
#include "messages.h"
#include "names.h"
#include "table.h"

/* That it has ended: which number was taken last before that. */
struct ending {
	struct link link;		/* alone before that */
	u64 after;
	int (*forget)(struct ending *ending);	/* returns 0 if that has to wait */
};

struct known_opening {
	struct link all;
	struct link uses;		/* the list of the threads that call through it */
	struct ending ending;
	u32 id;
	u32 system_device, process_id;
	u32 space, id_there;		/* the namespace of its ids, if it is not the first one, and its id there */
	u64 start;
	enum met met;
	int known, numbered;
	u32 device, process;		/* its numbers in the capture */
	u64 told;			/* when it was met, or numbered */
	u32 list;			/* the last side list that tells of it */
	struct table thread_numbers;	/* that mean a thread of it */
	char name[NAME_BYTES];
};

struct known_thread {
	struct link uses;		/* the list of openings through which it calls */
	struct ending ending;
	u32 id;
	u32 thread_id, process_id, bits;
	u64 start;
	char name[NAME_BYTES];
};

/* A thread that calls through an opening: it has a number in the capture. */
struct use {
	struct link all, of_opening, of_thread;
	struct ending ending;
	struct known_opening *opening;
	struct known_thread *thread;
	struct who who;
};

/* The lists of all openings and all uses, the newest ones last. */
extern struct link known_openings, known_uses;

/* The one with this number. A new one is empty. */
struct known_opening *known_opening(u32 id);
struct known_thread *known_thread(u32 id);
/* The same, or NULL if there is none. */
struct known_thread *known_thread_if(u32 id);
struct use *known_use(u32 opening, u32 thread);
struct use *known_add_use(struct known_opening *opening, struct known_thread *thread, struct who who);
/* It has ended, after this number was taken. The next call of the thread through the opening is another use. */
void known_end(struct ending *ending, u64 after);
static inline int known_has_ended(const struct ending *ending)
{
	return !link_is_alone(&ending->link);
}
/* Forgets what ended before a number above this one was taken. */
void known_forget(u64 number);
#endif
