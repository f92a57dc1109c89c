/* The messages in the ring, from the BPF program to the loader. Each begins with struct message. */
#ifndef RECORDER_MESSAGES_H
#define RECORDER_MESSAGES_H

#define CHUNK 32768u		/* the most command bytes of a chunk, and the most bytes of a piece of an attachment */
#define MOST_COMMANDS (4u << 20)	/* the most bytes of a write's commands */
#define MOST_RETURNS (1u << 18)	/* the most bytes of a read's */
#define MOST_CHUNKS 32u		/* the most chunks of a read: each has at least half its bytes */
#define MOST_ATTACHMENTS 64u	/* the most attachments of a call */
#define MOST_ATTACHED (4u << 20)	/* the most bytes of a call's attachments */
#define MOST_AT_ONCE (1u << 20)	/* the most bytes of attachments of a record, or of a read: preemption is off */
#define FIRST_BYTES 65536u	/* so many bytes of a frame may use the whole ring */
#define MOST_CPUS 512u
#define MOST_OPENINGS 65536u	/* that are recorded at one time, */
#define SHARE_OF_OPENINGS 1024u	/* and those of one process */
#define SHARES 32768u		/* processes whose ids differ by a multiple of this have one share together */
#define TICKET_BYTES 16u	/* of a ring, for each number that an older kernel gives: see helped.bpf.h */
#define NAME_BYTES 16u
#define CALLED_BYTES 64u	/* the most bytes of what --only calls a process, with the NUL behind it */
#define COMMAND_BYTES 256u	/* the most bytes of a command line */
#define MOST_OF_STACK 64u	/* the most addresses of a stack */

/* The driver takes a last command that goes past write_size. The longest command, BC_TRANSACTION_SG, may have all bytes
 * but its first one there: 4 + 72 - 1 bytes. */
#define BEYOND_END 76u

enum message_type {
	MESSAGE_CHUNK = 1,	/* commands of a frame, and perhaps pieces; a write waits for MESSAGE_WRITTEN */
	MESSAGE_PIECE,		/* bytes of an attachment */
	MESSAGE_WRITTEN,	/* the driver has finished a write */
	MESSAGE_LOST,		/* the number goes unused */
	MESSAGE_UNATTACHED,	/* a record of the frame has no entry */
	MESSAGE_LATE,		/* the entry of a record was read after the driver had taken it */
	MESSAGE_OPENING,	/* an opening, and the name of its process */
	MESSAGE_CLOSED,		/* an opening ended */
	MESSAGE_THREAD,		/* a thread, and its name */
	MESSAGE_NAME,		/* a thread has another name */
	MESSAGE_LEFT,		/* a thread left by BINDER_THREAD_EXIT */
	MESSAGE_ENDED,		/* a thread ended */
	MESSAGE_COMMAND,	/* the command line of an opening's process, and its user */
	MESSAGE_STACK,		/* the stack of a call, if stacks are taken */
};

/* Why a number goes unused, or a record has no entry. `reasons` in side.c has their words. */
enum reason {
	REASON_NONE,
	REASON_CALL_UNREADABLE,	/* the binder_write_read could not be read at entry */
	REASON_TOO_LARGE,
	REASON_TOO_MANY,	/* of this record and all later ones: the call's bound on attachments was reached */
	REASON_UNREADABLE,	/* the commands or the data could not be read */
	REASON_RING_FULL,
	REASON_EFAULT,		/* it is not known what the driver consumed */
	REASON_OTHER_MEMORY,	/* the device is not mapped in the caller's memory */
	REASON_BROKEN,		/* the records do not fill the bytes exactly */
	REASON_IN_FLIGHT,	/* the driver had not finished the write when the recording ended */
	REASON_HELD_TOO_LONG,	/* the driver took too long for the write: later frames had to wait */
	REASON_FILE_TOO_SMALL,	/* the frame is larger than a file may be */
	REASON_NOT_WRITTEN,	/* the disk had no room */
	REASON_REFUSED,		/* the driver refused the send, and its data is much for a flight recorder */
	REASON_END,
	REASON_LATER,		/* not lost: the next run of a program copies it, or the frame waits for the next file */
};

/* Whether one of the recorder's programs in the kernel keeps its processor until its end. */
enum preemption { PREEMPTION_NOT_SEEN, PREEMPTION_UNKNOWN, PREEMPTION_IS_ON, PREEMPTION_IS_OFF };

/* Behind the commands of a chunk may be pieces of the same frame, each at a multiple of 8 bytes of the message. */
#define MULTIPLE_OF_8(bytes) (((bytes) + 7) & ~7ull)

enum direction { DIRECTION_WRITE = 1, DIRECTION_READ = 2 };

struct message {
	unsigned int type, direction;
	unsigned long long number;	/* of the frame; without a frame the last number taken before the message */
	unsigned long long time;	/* CLOCK_MONOTONIC, nanoseconds */
	unsigned int opening, thread;	/* numbers that the BPF program gives, never twice */
};

struct chunk {
	struct message head;
	unsigned int commands;		/* how many bytes follow */
	unsigned int base;		/* where they begin in the frame */
	unsigned int next;		/* where the next chunk begins; 0 if this is the last one of a read */
	unsigned int late;		/* 1 if some were read after the driver took them */
};

struct piece {
	struct message head;
	unsigned int record;		/* where the record begins in the frame */
	unsigned int data, offsets;	/* the two sizes of the attachment */
	unsigned int at, bytes;		/* where the bytes that follow begin, in data and offsets together */
	unsigned int unused;
};

struct event {
	struct message head;
	union {
		unsigned long long words[3];	/* how the BPF program fills in any of these */
		struct { unsigned long long consumed; } written;	/* how many bytes of the write */
		struct { unsigned long long reason; } lost;
		/* of MESSAGE_UNATTACHED and MESSAGE_LATE */
		struct { unsigned long long reason, record; } note;
		/* space: the namespace of its ids, and its id there; 0 in the first one; start: of the process */
		struct { unsigned int device, space, process, id_there; unsigned long long start; } opening;
		/* bits of its calls, 32 or 64; also of MESSAGE_NAME, without bits and start */
		struct { unsigned int id, bits, process, unused; unsigned long long start; } thread;
		struct { unsigned long long id, process, is_last; } ended;	/* is_last: its process ended too */
	};
	char name[NAME_BYTES];
};

struct command {
	struct message head;
	unsigned int user;		/* the effective user id, in the first namespace */
	unsigned int bytes;		/* how many bytes of the text count; 0 if it could not be read */
	char text[COMMAND_BYTES];	/* as in /proc/PID/cmdline */
};

/* The stack of a call that writes: where its functions go on, the innermost one first. */
struct stack {
	struct message head;
	unsigned long long memory, start;	/* its process's mm, and when that process began */
	unsigned int process, count;
	unsigned long long addresses[MOST_OF_STACK];	/* only `count` of them are in the ring */
};

/* How many openings a process has among those that are recorded. */
struct share {
	unsigned int process, openings;
};

/* What the iterator over open files writes: an opening from before the recording. */
struct met_opening {
	unsigned long long process, device, start;
	unsigned int opening, space, id_there, unused;
	char name[NAME_BYTES];
};
#endif
