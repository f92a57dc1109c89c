/* What the BPF program keeps: its tables, the counter of numbers, and the way of a message into the ring. */
#ifndef RECORDER_STATE_BPF_H
#define RECORDER_STATE_BPF_H
#include "task.bpf.h"

/* Whether an opening is recorded. What its process is called is asked when the process itself calls. */
enum wanted { NOT_WANTED, WANTED, WANTED_BY_NAME_PERHAPS };

struct opening {
	u32 id;
	u8 recorded, told;	/* recorded: enum wanted */
	u8 born;		/* it was opened after the recording began, and all its calls are recorded */
	u8 has_command;		/* a command line was reported */
	u32 process, device;
	u32 space, id_there;	/* the namespace of the process's ids, if it is not the first one, and its id there */
	u64 memory;		/* the mm of the process that opened it, where the device is mapped */
	u64 start;
	u64 look_at;		/* when the command line is looked at again, */
	u64 looked_in;		/* and the mm in which it was: exec makes another one */
	u64 command;		/* the sum of the one that was reported */
	char name[NAME_BYTES];
};

enum call { NO_CALL, CALL_RECORDED, CALL_NOT_RECORDED };

/* What a process is called, and zeros behind it. */
struct called {
	char name[CALLED_BYTES];
};

/* A thread that has called a Binder device. */
struct thread {
	u32 id, opening;
	u8 told, call_is, write_told;
	u8 write_failed;		/* the driver ended the write with an error */
	u8 has_chunk;			/* a chunk of the write is in the ring */
	u32 commands;			/* how many the driver began in this call */
	u64 write_number;		/* 0 if the call writes nothing */
	u64 consumed;			/* bytes of those commands */
	u64 copied, looked_at;		/* how many bytes of the write are in the ring; those with the data of theirs */
	u64 call;			/* the address of the binder_write_read */
	u64 write_from, write_bytes;
	u64 write_consumed, read_consumed, read_size, read_buffer;	/* at entry */
	u64 attached, spent;		/* bytes of the call's attachments; of the frame in the ring */
	u32 attachments, is_over;	/* of this call; is_over: the frame gets no more of them */
	u32 reads_own_memory, process;
	u32 has_late, late;		/* a record whose data the next run copies */
	u32 bits;			/* of its last call: 32 or 64 */
	u32 stack_of;			/* the last 32 bits of the number of the last write whose stack was asked for */
	u64 start;
	u64 comm[NAME_BYTES / 8];	/* its name as the kernel has it, with what is behind its end */
	char name[NAME_BYTES];
};

/* The fields of a transaction that say where its data is. */
struct place {
	u64 data, offsets, data_from, offsets_from;
};

/* The data of a transaction or reply that is copied. */
struct attachment {
	u64 number;
	struct place place;
	u32 record, at, failed, opening, thread, direction;
};

/* A walk through what a call read. */
struct walk {
	u64 number, from, left;		/* from, left: what is not copied yet */
	u32 base, at, bytes;		/* of the chunk: its start; the record; its bytes */
	u32 records, failed, unused;
};

/* As it is in the ring. */
struct full_piece {
	struct piece piece;
	u8 bytes[CHUNK];
};

/* Memory for one run of a program, whose stack has only 512 bytes. */
struct scratch {
	struct attachment attachment;
	struct walk walk;
	u64 from, length, failed, taken, try_again;
	u64 until, attached;		/* of this run: when it tries no more, 0 if all went well; bytes of attachments */
	struct binder_write_read call;
	struct chunk chunk;
	u8 chunk_bytes[2 * CHUNK];
	struct piece piece;
	u8 piece_bytes[2 * CHUNK];
	struct command command;		/* not the last one: see BOUND in command.bpf.h */
	struct event event;
	struct thread new_thread;
	struct called called;		/* what the caller's process is called, */
	u64 letters;			/* and how many letters that has */
};

struct { __uint(type, BPF_MAP_TYPE_RINGBUF); __uint(max_entries, 1 << 26); } ring SEC(".maps");

/* One for each CPU. A map with a value for each CPU cannot have values of this size. */
struct {
	__uint(type, BPF_MAP_TYPE_ARRAY);
	__uint(max_entries, 1);
	__type(key, u32);
	__type(value, struct scratch);
} scratches SEC(".maps");

#define TABLE(name, key_type, value_type) \
	struct { \
		__uint(type, BPF_MAP_TYPE_HASH); \
		__uint(max_entries, 65536); \
		__uint(map_flags, BPF_F_NO_PREALLOC); \
		__type(key, key_type); \
		__type(value, value_type); \
	} name SEC(".maps")

TABLE(threads, u32, struct thread);	/* by the thread's id */
TABLE(openings, u64, struct opening);	/* by the address of the file; see MOST_OPENINGS */
TABLE(processes, u32, u32);		/* those whose end will be reported */
TABLE(wanted_processes, u32, u32);	/* of --pid */
TABLE(wanted_devices, u32, u32);	/* of --device */
TABLE(wanted_users, u32, u32);		/* of --only, as the next one */
TABLE(wanted_names, struct called, u32);
TABLE(driver_devices, u32, u32);	/* that the driver made itself */

/* From here on the room of the ring is only for events. */
const volatile u64 ring_limit = 60 << 20;
const volatile u32 by_process = 0, by_name = 0, by_device = 0, no_attachments = 0;

u32 stopped = 1;		/* no number is taken: the recording has not begun, or has ended (kernel_stop) */
u64 last_number = 0;		/* these three are NEXT and LAST in helped.bpf.h */
u32 last_thread = 0, last_opening = 0;
u64 half_calls = 0;	/* calls of which the entry, a command or the return was not seen */
u32 preemption = PREEMPTION_NOT_SEEN;
u64 calls_32_bit = 0, calls_without_room = 0, calls_without_file = 0;

/* Openings by process: without a bound for each, a few processes could take the whole table, and no opening of others
 * would be recorded any more. A count can't go wrong when a process ends before its openings, as it may: each opening
 * names the process by which it was counted. */
struct share shares[SHARES];
u32 opening_count = 0;

/* For each CPU: no number below this one waits for the program that runs there; 0 if none runs. */
struct { u64 number, unused[7]; } taking[MOST_CPUS];

/* The loader looks into the ring by itself. A wake-up for each message would cost much. */
#define QUIETLY BPF_RB_NO_WAKEUP

/* The verifier must see each bound where it is used: as a mask that the compiler can't move. */
#define BOUND(value, mask) asm volatile("%0 &= " #mask : "+r"(value))

static __always_inline struct scratch *scratch(void)
{
	u32 cpu = bpf_get_smp_processor_id();
	return bpf_map_lookup_elem(&scratches, &cpu);
}

/* Takes the next number; 0 if there is none to give. The loader reads the last number first and `taking` second. So for
 * each number up to what it read that has no message yet, it sees a value in `taking` that is not above the number. */
static __always_inline u64 take_number(void)
{
	u32 cpu = bpf_get_smp_processor_id() & (MOST_CPUS - 1);
	*(volatile u64 *)&taking[cpu].number = LAST(number) + 1;
	u64 number = NEXT(number);
	if (!IS_GIVEN(number)) {
		__sync_fetch_and_add(&calls_without_room, 1);
		*(volatile u64 *)&taking[cpu].number = 0;
	}
	return number;
}

/* The message of the number that was taken is in the ring, or had no room there. */
static __always_inline void number_is_told(void)
{
	u32 cpu = bpf_get_smp_processor_id() & (MOST_CPUS - 1);
	*(volatile u64 *)&taking[cpu].number = 0;
}

/* Puts an event into the ring. Returns 0 if there was room. */
static __always_inline long say(u32 type, u32 thread, u32 opening, u64 number, u64 a, u64 b, u64 c, const char *name)
{
	struct scratch *s = scratch();
	if (!s)
		return 1;
	struct event *e = &s->event;
	e->head.type = type;
	e->head.direction = 0;
	e->head.number = number;
	e->head.time = bpf_ktime_get_ns();
	e->head.opening = opening;
	e->head.thread = thread;
	e->words[0] = a;
	e->words[1] = b;
	e->words[2] = c;
	if (name)
		__builtin_memcpy(e->name, name, NAME_BYTES);
	return bpf_ringbuf_output(&ring, e, sizeof *e, QUIETLY);
}

/* Reports that the driver has finished the write. Returns 0 if there was room. The message ends with what is used of
 * it. */
static __always_inline long say_written(struct scratch *s, const struct thread *t, u64 consumed)
{
	struct event *e = &s->event;
	e->head.type = MESSAGE_WRITTEN;
	e->head.direction = 0;
	e->head.number = t->write_number;
	e->head.time = 0;
	e->head.opening = t->opening;
	e->head.thread = t->id;
	e->written.consumed = consumed;
	return bpf_ringbuf_output(&ring, e, __builtin_offsetof(struct event, written) + sizeof e->written, QUIETLY);
}

/* Reports a lost frame. For REASON_RING_FULL half of the room for events is left to other events, which could not be
 * found out later; that a number has no message is seen anyway. */
static __noinline int lose(struct thread *t, u64 number, u64 reason)
{
	if (!t || !IS_GIVEN(number))
		return 0;
	if (reason == REASON_RING_FULL && bpf_ringbuf_query(&ring, BPF_RB_AVAIL_DATA) > ring_limit + ring_limit / 32)
		return 0;
	say(MESSAGE_LOST, t->id, t->opening, number, reason, 0, 0, 0);
	return 0;
}
#endif
