-- What each table and view of docs/DATABASE.md rests on, and what it and its columns mean: that page is made of this
-- file, by checks/run database_page, and checks/viewer/table_catalogue.py says how comments have columns.
--
-- Columns that many tables have:
--   place: the byte offset of a record, the key of `record`, as `closer`, `freed_by`, `delivery`, `send` and others
--   seq: the sequence of a frame, the key of `frame`
--   dur_seq: how many sequences from the record to its end, as the answer
--   upid, utid: own numbers of processes and threads; a process on two devices has two
--   process, thread: the numbers in the frames
--   pid, tid: the numbers of the system
--   ts, dur, since, ended, age, longest, how_long, usually (ns): a time or a duration of `CLOCK_MONOTONIC`; NULL
--     without a side list
--   generation: a span in which the number of a handle means one object, the key of `handle`
--   depth: 1 is the outermost call
--   oneway, is_open, certain (flag): `certain`: as in [send](#send)
--   interface (text): the interface of a call, as [its data name it](#names-of-interfaces)
--   service (text): the name under which a node is [registered](#names-of-services)
--   method, call (text): `call` is interface, method and code, as far as they are known
--   who, client, server, owner (text): name and number of a process
--   kind, name, what, why, section, verdict, title, path, rules, note, said, outcome, source, driver, moment, side,
--     met, command, sender, receiver, called, called_interface, called_method, called_call, client_package,
--     server_package, arguments, defect, text, rests_on (text): a name, a word, or a sentence
-- needs: nothing
-- makes: tables: about

CREATE TABLE about(name TEXT PRIMARY KEY, rests_on TEXT NOT NULL
  CHECK (rests_on IN ('bytes', 'rule', 'proved', 'side', 'inferred')), text TEXT NOT NULL) STRICT;
INSERT INTO about VALUES
-- ## The capture, processes and threads
  ('capture', 'bytes', 'facts, by their keys'),
  --   key (text), value (any)
  --
  -- Keys:
  --
  -- - `file`, `bytes`, `frames`, `records`, `first_seq`, `last_seq`, `missing`: name, size and totals
  -- - `malformed`: the line of the [first fault](#raw-tables)
  -- - `first_ts`, `last_ts`, `until_ts`: times of the first and last frame, and of the end to which ages count, of a
  -- cut capture its last frame
  -- - `side_list`: the version of the [side list](SIDE-LIST.md#form), or 0 without one
  -- - `begin_ts`, `end_ts`, `realtime`, `boottime`, `kernel`, `machine`, `payloads`, `lost`: of the side list
  -- - `narrowed`, `narrowed_processes`, `narrowed_devices`: the options for [a part of the
  -- system](SIDE-LIST.md#a-part-of-the-system), and whether processes, and devices, were left out
  -- - `first_file`: the number of the first file that [a flight recorder](RECORD.md#a-flight-recorder) has left
  -- - `kept`, `kept_ts`, `kept_after`, `kept_frame`, `kept_at`, `kept_pid`, `kept_since`, `kept_limit`, `kept_name`:
  -- [why this set was kept](SIDE-LIST.md#why-a-set-was-kept)
  -- - `side_doubt`: how side list and capture differ, or NULL
  -- - `late_frames`: how many frames are [later than the end](RULES.md#rules-of-all-sections)
  -- - `books_doubt`: which copies of the driver's books are left out, and why
  -- - `packages_doubt`: why [the file of packages](PAGE.md#files-and-options) is not taken, or NULL
  -- - `books_compared`, `books_left_out`: openings compared with the books of the end, and others there
  -- - `books_went_on`, `books_lossy`, `books_in_use`: of the others, those with frames after the copy; that lack
  -- frames; that had frames when the books of the beginning were copied, or are not in these
  -- - `methods`: how many methods the given tables and `--aidl` have
  -- - `arguments`: with `./view --arguments`: `taken`, or why there are none
  -- - `prints`: the version of [the keys of defects](#keys)
  ('device', 'side', 'a Binder device'),
  --   device: the number in the frames
  --   name: as `binder`
  --   driver: `C` or `Rust`; NULL if the side list does not say it
  ('process', 'side', 'a device and a process number; the rest is of the side list'),
  -- Processes with a call in `book_open` and no frame have 0 `frames`.
  --   **upid**, device, process, pid
  --   name: the last one of its first thread, cut at 256 characters, or a [longer one](PAGE.md#files-and-options)
  --   opening, met: as in [the side list](SIDE-LIST.md#devices-processes-and-threads)
  --   opened (ns): when it got its number, at its first call
  --   ended_after, ended: when it closed its last descriptor or ended, after which sequence
  --   first_seq, last_seq, frames: the first and the last frame, and how many
  --   command, uid: the last command line, and the effective user id
  ('thread', 'side', 'a thread of a process; tid, name, end and bits are of the side list'),
  --   **utid**, upid, device, process, thread, tid
  --   name: the last one
  --   ended_after, ended, why: its end; `ended`, or `left` for `BINDER_THREAD_EXIT`
  --   first_seq, last_seq, frames: as of `process`
  --   last_record, last_write: its last record, and its last one in a write
  --   bits: 32 or 64, of its calls
  ('who', 'side', 'the name and the number of a process'),

-- ## Frames and records
  ('frame', 'bytes', 'what one call wrote or read; ts is of the side list'),
  --   **seq**, place, utid, upid: `place` is that of the frame header
  --   direction (text): `write` or `read`
  --   command_length, attachment_length, records: bytes, bytes, and how many records
  ('clock', 'side', 'other clocks at each frame'),
  -- The wall clock at each call of a process: `FROM txn JOIN clock USING (seq)`.
  --   **seq**, ts
  --   realtime: nanoseconds since 1970 by the wall clock, also after it was set
  --   boottime (ns): `CLOCK_BOOTTIME`; NULL of an old side list
  --   utc (text): `realtime` as `2026-11-28 14:03:17.117`
  ('record', 'bytes', 'a record, with the fields of binder.h that it has'),
  -- `./listing --at PLACE` has the data.
  --   **place**, seq, utid, upid
  --   kind: the name of the code word, also of [freeze notifications](COMMANDS.md#freeze-notifications)
  --   address: `buffer` of a transaction or reply, and the address of BC_FREE_BUFFER
  --   code, flags, oneway, sender_pid, sender_euid, data_size, offsets_size, offsets: a reply has no target, and its
  --     `code` says nothing
  --   extra: `buffers_size` of the _SG forms, `secctx` of BR_TRANSACTION_SEC_CTX
  --   attachment: the place of its entry
  --   value: the code word of an `OPAQUE` record, the number of BR_ERROR and the like, `is_frozen` of BR_FROZEN_BINDER
  --   interface, service: of a transaction; and an interface that is all data of a reply
  --   data_hash: of a transaction: equal data have one number, also when redacted
  --   arguments: what a transaction or reply [says](PAGE.md#arguments), with `./view --arguments`
  ('object', 'bytes', 'an object of an attachment, up to the first bad one'),
  --   **place**, **idx**, offset: the record, the number in the list of offsets, and the offset
  --   sort (text): BINDER, WEAK_BINDER, HANDLE, WEAK_HANDLE, FD, FDA or PTR; NULL for a bad object
  --   flags, binder, handle, fd, cookie, num_fds, buffer, length, parent, parent_offset: the fields of the sort
  --   bad (text): ListLength, Misaligned, Overlap, Short or UnknownSort
  ('interface', 'bytes', 'a name of an interface in the data'),
  --   **id**, name
  ('service', 'bytes', 'a name of a service in the data'),
  --   **id**, name
  ('listing', 'bytes', 'a line of ./listing'),
  --   **place**, seq, device, process, thread, kind, handle
  --   ptr, cookie (text): hexadecimal
  --   address, interface (text): the address is hexadecimal

-- ## Calls, sends and buffers
  ('call', 'rule', 'a call; place, closer and verdict are proved for the list of its thread; delivery is inferred'),
  -- A call that is made and served has two rows: `FROM call c JOIN call s ON s.place = c.delivery`.
  --   **place**, seq, utid, upid: the opener
  --   side: `made` or `served`
  --   depth, parent: `parent` is the call around it, the last one before it on its thread that is not closed before it
  --   code, flags, handle, generation, ptr, cookie, sender_pid, data_size: of the opener
  --   verdict: answered, replied, failed, crossed or open, as in the report
  ('txn', 'inferred', 'a transaction that was sent, with both ends'),
  --   **place**, seq, ts, oneway: the send
  --   client_upid, client_utid, client: who sent it
  --   main_thread (flag): 1 if the main thread of its process sent it
  --   server_upid, server_utid, server: to which process it went, and which thread got it; NULL if not known
  --   ptr, interface, code, method, call: the node and the method
  --   data_size, offsets_size, reply_size: bytes; `reply_size` is of the reply that the caller got
  --   outcome: of a call answered, failed, crossed or open; of a oneway send delivered, confirmed or unknown; of both
  --     refused
  --   error (text): the record by which it was refused or failed, as BR_DEAD_REPLY
  --   wait, dur (ns): to the delivery, and to the answer. `wait` may be a little below 0: times come
  --     from several processors
  --   device (text): as `hwbinder`
  --   client_uid, client_package, server_uid, server_package: user ids of both
  --     processes, and packages of these users
  --   arguments, returned (text): what the call and its reply [say](PAGE.md#arguments), with `./view --arguments`
  ('send_time', 'inferred', 'where the time of a transaction went'),
  -- `queue`, `work`, `below`, `back` and `unknown` add up to `dur`, to the nanosecond.
  --   **place**, seq, ts: the send
  --   oneway, is_open: `is_open`: it has no end in the capture, and `dur` is the time so far
  --   parent: the call that its thread served when it made this one
  --   client_upid, client_utid, server_upid, server_utid, delivery: who sent it, and who got it
  --   dur: until the caller read the answer; of a oneway send, until its buffer was freed, as libbinder does when the
  --     handler returns; or until the end of its thread, or of the recording
  --   queue (ns): until a thread of the server got it, as `wait` of `txn`
  --   work (ns): what that thread did then, without `below`, but with calls of a oneway handler
  --   below (ns): the calls that it made meanwhile
  --   back (ns): from the reply until the caller read it
  --   unknown (ns): what can't be told apart
  --   why: `a frame was lost`, `which thread served it is not known`, `its reply is not known`, `its times are not in
  --     order`; else NULL
  --   certain: NULL without a delivery
  ('call_tree', 'inferred', 'all calls that were made within a call'),
  -- `WHERE root = PLACE` takes one call: `own` of its rows add up to its `dur`, as [./view --call](PAGE.md#one-call)
  -- shows.
  --   **root**, **n**: the call of which it is asked, and the order of the rows
  --   level: 0 of the call itself, 1 of calls that its server made for it
  --   place: the call
  --   is_unknown (flag): 1 of a row that has what is not known of the call
  --   since: from the send of the root to that of the call
  --   own (ns): `queue`, `work` and `back` together, or what is not known
  --   queue, work, below, back, dur (ns): as in `send_time`
  ('queue_holder', 'inferred', 'what the threads of a server were in while a send waited'),
  -- `WHERE place = PLACE` takes one send. A thread that was in nothing has no row.
  --   place: the send that waited
  --   upid, utid: the server, and its thread
  --   holder, send: what the thread was in, and the send of it
  --   own, oneway (flag): `own`: a call that the thread made; `oneway`: a oneway handler; else a call that it served
  --   began, ended (ns): `ended` is NULL if it has no end
  --   dur: how long of the wait
  ('method_time', 'inferred', 'times of methods, by caller and of all callers together'),
  -- Of calls that were answered, and of oneway sends whose buffers were freed.
  --   client_upid, client: the caller; NULL of all callers
  --   calls (integer), per_s (real): how many, and in a second of the recording
  --   median, p95, p99, longest (ns): of `dur` of `send_time`. `p95` is the least that 95 of 100 do not exceed
  --   queue_median, queue_p95, queue_longest, work_median, work_p95, work_longest (ns)
  ('delivery', 'rule',
    'a buffer that came; place and freed_by are proved for the list of deliveries and frees; send is inferred'),
  --   **place**, seq, utid, upid, kind
  --   code, handle, ptr, cookie, oneway: `code`, `handle` and `interface` of a BR_REPLY are of the call that it answers
  --   call (integer): the served call that it opens, or the call that the reply answers
  --   freed_by, freed_by_utid, dur_seq: the free; NULL of a leaked buffer
  --   held: how many buffers of its path its process held right after it
  ('send', 'inferred', 'a transaction or reply that was sent, and what became of it'),
  --   **place**, seq, utid, upid, kind
  --   outcome: `delivered`, `refused`, `confirmed` (the driver took it, and no delivery fits) or `unknown`
  --   certain: 1 if the sending process and its handle are known; which of its sends it was may be open
  --   fits: how many sends the delivery may have come from
  --
  -- `certain` is 0 for a guess: sends to other nodes are alike; or the send may be missing, because frames are, or
  -- because the receiver of a oneway send is older than the capture.
  --
  -- `schema.sql` has the rules, above `raw_send`, and [PROMISES](PROMISES.md#tables-of-the-listing) says what of them
  -- is proved.
  ('fd_sent', 'inferred', 'descriptors that were sent: from whom, to whom, with which call'),
  --   sent, received, idx: the send and the delivery, NULL if not known; the number in the list of offsets
  --   ts: of the delivery, or else of the send
  --   reply (flag): 1 if it went with a reply
  --   interface, code, method, call: of the call, also if it went with the reply
  --   count: 1, or how many descriptors an FDA object has
  --   fd, received_fd: the number in the sender, and in the receiver; NULL of FDA
  ('refusal', 'inferred', 'why the driver refused a send'),
  -- By [the driver's log](RECORD.md#the-log-of-failed-transactions).
  --   place: the send, or a reply
  --   errno: a positive number; 0 if the driver names none
  ('no_space', 'inferred', 'what waited or was held at a receiver when a send found no space'),
  -- Of each sender and receiver the first such send, up to 16.
  --   finding: its `id`
  --   reply, oneway (flag): what was sent
  --   code, interface, method: of the call, also for a reply
  --   n: how many there were
  --   held, bytes, largest: bytes of those that the receiver had, of all, and of the largest, as the driver rounds them
  ('status', 'bytes', 'the number of a BR_REPLY with TF_STATUS_CODE'),
  -- None of a redacted capture.
  --   **place**, value: NULL if the data are not in the capture
  ('looper', 'inferred', 'a thread that takes calls, and what it serves and calls at the end'),
  -- Threads that ended before the last frame have no row.
  --   **utid** (integer), upid (integer), who (text), thread (text): `thread` is its name
  --   entered: where it last said so; NULL if it was only seen to serve
  --   spawned (flag): 1 if the driver had asked for it (BC_REGISTER_LOOPER)
  --   serving, seq: the innermost call that it serves, or a oneway transaction after which it did nothing
  --   ts, age: when that came, and for how long it is served
  --   client_upid, client, send: who sent it
  --   calling: the call that it makes meanwhile, without an answer
  --   called_upid, called, called_ptr: whom, and the node; if not known, its own `upid` with
  --     a minus, and the handle
  ('level', 'rule', 'the most that a process held in each of 16 slices'),
  -- What a process held at the end, also an ended one, is in `delivery` with `freed_by IS NULL`, `handle.strong`, and
  -- `call` with the verdict `open`. The page leaves out those with `ended_after` of `process` before the last frame.
  --   **upid**, **slice**

-- ## Handles and nodes
  ('handle', 'inferred',
    'a generation of a handle; acquired to decrefs, strong and weak are proved for the list of its records'),
  --   **generation**, upid, handle, n: `n` counts the generations of a number
  --   begin, end: the first record that names it, and the last release
  --   given_by, held_since: the delivery that gave it, and the acquire since which it is held
  --   strong, weak, held_strong, held_weak: references at the end, never below 0, and those of buffers not freed
  --   acquired, released, increfs, decrefs: how many records of each kind
  ('reference', 'rule', 'an acquire, release, increfs or decrefs'),
  --   **place**, seq, utid, upid, handle, kind
  --   strong, weak: the counts after it, as the report counts
  ('peer', 'inferred', 'a node that a generation was seen to lead to'),
  --   deliveries, certain (integer): how many deliveries say so, and how many of these are certain
  ('node_of', 'inferred', 'the one of them that is taken'),
  -- By the first of: the only node with a certain delivery; the books of the beginning; the object of the giving
  -- delivery, if its send is certain; the only node with a delivery; a likely send. Handle 0 leads to the context
  -- manager.
  ('holder', 'inferred', 'who holds whose object at the end'),
  -- A process that ended before the last frame holds nothing.
  --   **upid**, who, **handle**: who holds it
  --   generation: the last one; NULL if only the books of the beginning have the handle
  --   strong, weak: references, with those in the books of the beginning
  --   buffers: references of buffers that are not freed
  --   given_by, held_since, since: as in `handle`, and the time
  --   owner_upid, owner, ptr, interface, service: whose object it is; NULL if not known
  ('death_request', 'inferred', 'who asked for whose death, and what came of it'),
  -- A row for each BC_REQUEST_DEATH_NOTIFICATION (`linkToDeath`).
  --   **place**, seq, ts
  --   upid, who, handle, cookie, generation: who asks
  --   owner_upid, owner, ptr, interface, service: whose death is asked for; NULL if not known
  --   outcome: `waiting`, `notified`, `cleared`, or `unread`: the process of the object ended, and nobody can read of
  --     that ([D12, D13](RULES.md#deaths))
  --   ended_by, ended: the BR_DEAD_BINDER or the clear
  ('traffic', 'inferred', 'who sends what to whom, and how much'),
  -- A row for each generation, code and `oneway`.
  --   sends: all; a call that is neither failed nor open was answered, or crossed
  --   failed, refused: those that an error reply ended, and of these those that the driver did not take
  --   open: calls without an answer
  --   delivered, one_fits: sends with a delivery, and of these those where only one fits
  --   buffers, buffers_peak: those not freed, and the most of this path, of all senders, that the receiver held
  --   longest_seq: the most sequences that a closed call took
  --   node_upid, ptr, cookie: the node, if known
  --   longest: the longest time that one took
  ('sender', 'inferred', 'how much a process sends'),
  -- `traffic` in sum. Rates are of the whole capture, and NULL without a side list.
  --   **upid**, who, uid
  --   calls, oneway, failed, bytes (integer): sends, and the bytes of their data
  --   sends_per_s, bytes_per_s (real)

-- ## Names of methods and services
  ('method', 'inferred', 'a method of an interface, by --methods, or built in'),
  -- [Methods](PAGE.md#names-of-methods) of interfaces that the capture names, and of `android.os.IBinder`.
  --   source: where it is from; `-` of a table that says no more
  ('node_interface', 'inferred', 'the interface that most calls to a node name'),
  --   **upid**, **ptr**, interface
  --   n, others: how many records name it, and how many another one
  ('node_service', 'inferred', 'a node that is a service; its rests_on says how that is known'),
  --   **upid**, **ptr**
  --   service, interface: the first registered name, or the one asked for most often; NULL in HIDL
  --   registered: where its process registered it; NULL if the name is inferred
  --   n, others: how many sends to the manager say so, and how many another name
  --   rests_on: `bytes` if registered; `inferred` if the manager answered a request for the name with it

-- ## Findings
  ('report', 'proved', 'the report, word for word'),
  --   section: `head` for the title, the totals and the heads of sections
  --   text: the row
  --   what: verdict, kind, which, cause, bits or direction
  --   thread, sender_pid, handle, code, closer, ptr, cookie, strong, strong_low, weak, weak_low, held_strong,
  --     held_weak, strong_due, weak_due, address, data_size: columns of [its section](REPORT.md)
  --   idx, at: index and offset
  ('finding', 'inferred', 'a row of the report, or of a section of the page, with its rule'),
  -- Each row of the report but those of `codes` and `oneway`, and sections that the page adds:
  --
  -- - `oneway`: sends that never came (`undelivered`); `spam`: suspected ones
  -- - `answers`: calls with a status other than 0; `exceptions`: methods with R4; `books`: calls of `book_open`
  -- - `pools`: used up; `queues`: objects to which oneway sends wait longer and longer
  -- - `descriptors`: processes that keep more and more; `services`: names that were asked for in vain
  -- - `freezes`, `freeze_clears`: as `deaths` and `clears`
  --
  -- `path` and `note` are texts of other columns, and do not change with these.
  --
  --   id, report: `report` is its `id` there
  --   target: the process to which its handle leads
  --   relation (text): to its call or thing: `to`, `at`, `oneway at`, `reply to`, `a reply`, `a reply to`, `freed`,
  --     `freed reply to`; `handle`, `node`, `cookie`, `address`, `service`; `given`: the path is the way of the handle.
  --     NULL without a path
  --   about, node: the called object, or the thing: a process and a ptr; if not known, the holding process with a
  --     minus, and the handle; the address; the `id` in `service`. NULL if the objects have a `way`
  --   interface (text), others (flag), method (text), service (text): [names](PAGE.md#names-of-methods) of the call and
  --     its object, or of the thing; `others`: some calls name another interface
  --   way: the `id` of the `way` of the handle, or of the objects of `answers`
  --   giver: who handed over the handles of a way with calls
  --   status: what a call of `answers` was answered with
  --   calls (text): the calls that used up a pool
  --   path: the columns above, of which groups are made, as a text
  --   n_all, n_good: how many took the path, and how many [completed](RULES.md#words-of-the-rules); of a held handle,
  --     how many its process was given so by one other. NULL where a path is not counted
  --   longest_seq, longest: the longest that a completed one took
  --   age_seq, age: to the end of the process or of the capture, for a call of its thread; NULL without
  --     a record
  --   later: how many things the thread began afterwards, up to 4
  --   lead: the finding with which it is shown, as the call of a buffer
  --   waiting: how many calls and sends wait for it, directly or not
  --   rule (text): the `id` of its rule
  --   said, other, other_upid, how_many, of_how_many, how_long, usually: words of a note, and the record, process,
  --     counts and times that they name in braces; NULL of a longer note
  --   note: what follows the sentence of the rule, in brackets
  --   culprit: who [causes it](RULES.md#who-causes-it), if another process
  ('way', 'inferred', 'a way by which handles came'),
  --   reply (flag): 1 if the handles came in replies
  --   code: the code of the calls
  --   about, node: the object of the calls, as in `finding`; of a way with calls, one that got one
  ('finding_group', 'inferred', 'findings of one path'),
  --   n, n_all, processes: findings, of all of the path, and how many processes cause them
  --   who: the `upid` of these, with commas
  --   first, last, waiting: the first and the last place; how many wait
  --   nth: the order: strongest verdict, most that wait, rings first, largest
  ('finding_head', 'inferred', 'the group of a finding'),
  ('finding_stack', 'inferred', 'the stacks of a finding'),
  --   id, n: the finding, and the order of its [stacks](PAGE.md#stacks)
  --   place, seq, stack: the record, its frame, and the stack of the call
  --   whose (text)
  ('rule', 'inferred', 'the rules'),
  --   id, verdict, text, fault (text)
  --   next (text): where to look next
  --   ring (flag): 1 if its groups come before others for which as many wait
  ('program', 'side', 'the name of a process, the same in each capture'),
  --   program, device (text): the name without a number after `:` or `_`, and the device's
  ('call_text', 'inferred', 'the name of a call, the same in each capture'),
  --   code, upid, ptr: if the node is not known, the calling process with a minus, and the handle
  ('defect', 'inferred', 'findings with one key'),
  --   id (text): [the key](#keys) of `kind`, `who` and `path`
  --   kind, who, path, call (text): who causes it; the call on the path, if `who` makes or serves it
  ('finding_defect', 'inferred', 'the defect of a finding'),
  -- Each finding that is not `normal` and has no `lead`.
  ('talk', 'inferred', 'traffic by names that are the same in each capture'),
  --   caller, server (text)
  --   oneway, sends, failed, refused, open, bytes, buffers (integer)

-- ## From the side list
  ('side_lost', 'side', 'a frame that was lost, and why'),
  --   seq, device, process, thread: NULL if nothing of the frame came through
  --   why: [the reason](SIDE-LIST.md#frames-and-losses)
  ('side_missed', 'side', 'losses without a number'),
  -- As [the side list](SIDE-LIST.md#missed) has it.
  ('side_failed', 'side', 'transactions that failed, by the driver''s log'),
  -- As [the side list](SIDE-LIST.md#failed-transactions) has it.
  --   what: `call`, `oneway` or `reply`
  --   answer: the number in `kind` of the error reply; NULL if it is none
  --   errno: a positive number
  --   from_seq, after, ts: between which looks at the log it came, and when the later one was
  ('side_overrun', 'side', 'a look at that log which may have missed some'),
  ('side_descriptors', 'side', 'how many descriptors a receiver has open'),
  -- As [the side list](SIDE-LIST.md#descriptors) has it.
  --   open, most: how many, and the limit of the process
  ('side_calls', 'side', 'open calls of a thread before the first file'),
  ('side_handle', 'side', 'a handle met before the first file'),
  ('side_call', 'side', 'the stack of the call that wrote a frame'),
  ('side_unstacked', 'side', 'calls without a stack, and why'),
  ('stack', 'side', 'the functions of a stack'),
  --   **stack**, **idx**, **inlined**: `idx` 0 is innermost. `inlined` rises from 0 to the function that has the
  --     inlined ones
  --   pid, pc: `pc` is where the function goes on
  --   path, build_id (text): `path` is NULL where nothing is mapped, and empty where no file is
  --   address: `pc` as the file's symbols count
  --   function, source (text): NULL without `--symbols`

-- ## From the driver's books
  ('book', 'side', 'a copy of one of the driver''s books'),
  --   moment, what: `begin` or `end`; `state`, `transactions` or `stats`
  --   from_seq, after, ts: [the numbers](SIDE-LIST.md#the-recording) between which it was copied
  ('book_opening', 'side', 'an opening in such a copy'),
  --   quiet (flag): the copy is certain for all frames of the opening
  --   deaths (flag), clears (integer), freezes (flag), freeze_clears (integer): whether deaths wait for
  --     acknowledgement, how many confirmations of clears wait; so of freezes
  --   loopers: how many of its threads were loopers
  ('book_handle', 'side', 'a handle there; its node is NULL if its process is not known'),
  --   strong, weak, dead, requested: `requested`: the process asks for the death of the handle
  ('book_node', 'side', 'an object there'),
  --   strong, weak (flag): whether its process was notified that others have references
  --   local_strong, local_weak: references within the driver
  ('book_buffer', 'side', 'a buffer there'),
  --   number: the driver in Rust gives none: then it is `address`
  --   address: below 2^30 if the kernel shows only the distance from the beginning of the mapping
  --   data_size, offsets_size, unread: `unread`: on its way
  ('book_call', 'side', 'an open call there'),
  --   side: `made` or `served`
  --   number, code: `number` is the driver's own, NULL of an error on its way
  --   server_pid, server_tid: of a call that was made: who has or should get it, and the thread that has it, or NULL
  ('book_process', 'side', 'a process without a frame, with a call that was open throughout'),
  ('book_open', 'side', 'a call in both copies'),
  --   upid, utid, tid, place: the caller; `utid` is NULL of a thread without a frame
  --   server, server_utid, server_tid, delivery (integer): the server; `server_tid` is NULL if no thread got it.
  --     `place` and `delivery` are below 0, and rise with the calls of a thread
  ('book_stats', 'side', 'threads and free oneway space of an opening'),
  --   requested, started, most: threads asked for by BR_SPAWN_LOOPER that have not come yet, that have come, and the
  --     most
  --   oneway_free: free bytes of the space for oneway sends; NULL before the device is mapped
  ('package', 'side', 'a package of the device, and the user id of its processes'),
  -- From [the file beside the side list](PAGE.md#files-and-options). An id is 100,000 times the number of the user and
  -- a number that all users share.
  --   uid, name: `uid` as of `process`
  ('disagreement', 'inferred', 'where the report and the books of the end differ');
  --   section: as in the report
