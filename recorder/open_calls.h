/* The calls that are open, as the frames tell that are written: who makes each, since when, and which thread has it; and
 * what the threads of each process do. It is kept only if something asks for it. Calls from before the recording are not
 * in it, nor which threads waited in a pool before it. */
#ifndef RECORDER_OPEN_CALLS_H
#define RECORDER_OPEN_CALLS_H
#include "common.h"
#include "frame.h"
#include "known.h"
#include "link.h"

/* A process, by an opening of a device. */
struct open_process {
	struct link all;
	u32 device, process;
	u32 pid;
	u32 opening;			/* the number of its opening */
	u32 oneways;			/* oneway calls whose data is in its async space, */
	u64 oneway_bytes;		/* and how many bytes that takes: as in oneways.h */
	u32 pool;			/* threads that were seen to wait for work of the process, or to do some */
	u32 serving;			/* how many of them serve a call, or have a oneway one */
	u32 waiting;			/* calls for it that none of its threads has; see `receiver` below */
	u64 full_since;			/* when the last thread of the pool began to serve; 0 if one does not */
	u32 mark;			/* for who looks at it; 0 at first, and again when a thread of the pool is free */
	char name[NAME_BYTES];
};

struct open_thread {
	struct who who;
	u32 pid, tid;
	struct open_process *process;
	struct link levels;		/* of the calls that it makes or serves, the innermost one last */
	u32 depth, beyond;		/* how many they are, and how many calls inside these are not remembered */
	u32 is_of_pool, has_oneway;	/* has_oneway: it works on a call that has no answer */
	u32 serving, unconfirmed;	/* what it works on; and sends of which it has not read what came of them */
	u64 sent;			/* its last send: the number of the frame, */
	u32 sent_record;		/* and where the record begins in the commands */
	char name[NAME_BYTES];
};

/* A call that a thread makes, or one that it serves. */
struct open_level {
	struct link of_thread;
	struct open_thread *thread;
	int serves;
	u64 since, number;		/* the time and the number of the frame, */
	u32 record;			/* and where the record begins in its commands */
	u32 code, handle, flags, interface;	/* interface: as in interfaces.h */
	u64 data, offsets;		/* how many bytes it carries */
	struct open_level *other;	/* the same call, of the thread that serves it or that makes it; NULL if not known */
	/* of a call that is made: */
	struct link by_age;		/* the newest one last */
	struct link alike;		/* with others that may be the same when somebody gets one; alone after that */
	struct open_process *receiver;	/* who gets it, if nobody has it yet: who got the last one for this handle; or NULL */
	u32 mark;			/* for who looks at it; 0 at first */
};

/* What the driver refused, so far; and the last send that it refused. */
struct refused_sends {
	u64 count, time, number;
	u32 record, pid;
};

extern int open_calls_are_kept;

/* From now on it is kept: before any frame comes. */
void open_calls_begin(void);
/* A thread got its numbers in the capture. */
void open_calls_thread(const struct use *use);
void open_calls_take(const struct frame *frame);
/* Takes the records of a frame that is written. It is called for each frame, and mostly nothing asks for it. */
static inline void open_calls_frame(const struct frame *frame)
{
	if (open_calls_are_kept)
		open_calls_take(frame);
}
/* The process with these numbers, or NULL. */
struct open_process *open_calls_process(u32 device, u32 process);
/* The innermost call of a thread, or NULL. */
struct open_level *open_calls_innermost(const struct who *who);
/* Who got the last call of the process for this handle, or NULL; and that this process got one. */
struct open_process *open_calls_receiver(const struct who *who, u32 handle);
void open_calls_note_receiver(const struct who *who, u32 handle, u32 receiver);
/* What ended has no open calls any more. */
void open_calls_thread_ended(struct who who);
void open_calls_process_ended(u32 device, u32 process);

/* All calls that are made and have no answer yet, by the links `by_age`. */
extern struct link open_calls;
/* All processes, by the links `all`. */
extern struct link open_processes;
extern struct refused_sends refused_sends;
static inline struct open_level *open_call_at(struct link *by_age)
{
	return LINKED(by_age, struct open_level, by_age);
}
static inline struct open_process *open_process_at(struct link *all)
{
	return LINKED(all, struct open_process, all);
}
#endif
