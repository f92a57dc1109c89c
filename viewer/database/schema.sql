-- The database of a capture. docs/DATABASE.md describes it as an interface, and this is the version of that interface.
-- Since version 3, interface is new, and the column interface of record, listing, call, send and delivery.
-- Since version 4, method and node_interface are new.
-- Since version 5, command and uid of process, the names that begin with book, disagreement, side_call, side_unstacked,
-- stack, finding_stack, service and node_service are, and the column service of record.
-- Since version 7, program, call_text, defect, finding_defect, talk, book_process, book_open, book_stats, and the
-- columns fault of rule, culprit of finding, driver of device and of book_opening, and those of freeze notifications in
-- book_opening are new; the notifications have their names in record; what the driver in Rust does not tell is NULL.
-- Since version 9, package, txn, holder, death_request, fd_sent, looper, sender, side_failed, side_overrun, refusal,
-- no_space and the column bits of thread are new.
-- Since version 10, send_time, call_tree, queue_holder, method_time and clock are new, and the columns data_hash of
-- record, and device, client_uid, client_package, server_uid and server_package of txn.
-- Since version 11, side_descriptors is new, and the columns arguments of record, and arguments and returned of txn.
-- needs: nothing
-- makes: tables: raw_capture, raw_process, raw_thread, raw_frame, raw_record, raw_interface, raw_service, raw_object,
--   raw_call, raw_generation, raw_send, raw_delivery, raw_slice, raw_level, side_device, side_process, side_thread,
--   side_time, side_clock, side_lost, method, call_interface, object_interface, object_service, side_missed,
--   side_failed, side_overrun, side_descriptors, side_calls, side_handle, book, book_opening, book_handle, book_node,
--   book_buffer, book_call, book_process, book_open, book_stats, package, disagreement, side_call, side_pc, side_map,
--   side_unstacked, symbol, data_hash, exception, argument, capture, report, finding; indexes: side_process_of_pid,
--   side_thread_of_tid, book_call_of

PRAGMA user_version = 11;

-- ---- raw tables: the rows that `./listing --tables` writes, column by column
--
-- These tables may change; the views may not. A change of a column, of its meaning or of the order raises the layout,
-- here, in raw_tables.py and in ending.rt of listing_tables. They are not STRICT: the loader has only whole numbers and
-- texts, and checking each took a quarter of its time.
--
-- A file is rows, one right after another, with no header, count or trailer; a table without rows is an empty file. A
-- number is 8 bytes, the lowest byte first. A row begins with a number, the mask: bit k, counted from 0 at the lowest,
-- is 1 if the row has column k. Then come the columns that it has, in order; the others are NULL. A column is a number,
-- or, where it is TEXT here, a number and as many bytes of ASCII. So a row of four numbers without the second is 32
-- bytes: the mask 13, and three numbers; and the row of the interface with the id 1 and the name `a.b.IC` is 30: the
-- mask 3, 1, 6 and the name. The loader refuses a file that ends within a row, and a mask with a bit above the last
-- column. Only sender_pid, status, and value of BR_ERROR and the like, have a sign: two's complement of 64 bits.
--
-- A malformed capture has the rows before its first fault: frames whose header and lengths are good, records before the
-- fault, and objects of entries before it. before-fault.cap has these frames; of a frame whose content has the fault
-- the good records, or, if all its records are good, these and the good entries.
--
-- A column is present in every row unless it may be NULL. A place is the place of a record's code word unless said
-- otherwise. A difference of two sequences is taken in 64 bits without a sign. Rows rise by the first column, in
-- raw_object and raw_level by the first two. Wherever the end of the capture is meant, a malformed capture ends at its
-- first fault.

-- The capture, in one row.
--   layout                5
--   parts                 the number of files
--   bytes                 the length of the joined capture; of a malformed one, the place of its fault in that
--   frames, records       the numbers of rows of raw_frame and raw_record
--   first_seq, last_seq   the sequences of the first and the last frame; NULL without frames
--   missing               as in the totals of the report
--   fault                 the number of its kind in the list of docs/ENVELOPE.md, 1 HeaderShort to 15 AttachSize
--   fault_place           as the auditor names it: the place in its own file
--   fault_part            the number of that file, from 1, even if it is the only one; all three are NULL without a
--                         fault
CREATE TABLE raw_capture(layout INTEGER NOT NULL, parts INTEGER NOT NULL, bytes INTEGER NOT NULL,
  frames INTEGER NOT NULL, records INTEGER NOT NULL, first_seq INTEGER, last_seq INTEGER, missing INTEGER NOT NULL,
  fault INTEGER, fault_place INTEGER, fault_part INTEGER);

-- A row for each process and for each thread, in the order of their first frames. An empty frame counts.
--   upid, utid            1, 2 and so on. A process is a device and a process number together, a thread is a device, a
--                         process number and a thread number together
--   process, thread       the number in the frames
--   first_seq, last_seq   the sequences of its first and its last frame
--   frames                how many it has
--   last_record           the place of its last record; NULL without records
--   last_write            the place of its last record in a write frame; NULL without one
CREATE TABLE raw_process(upid INTEGER PRIMARY KEY, device INTEGER NOT NULL, process INTEGER NOT NULL,
  first_seq INTEGER NOT NULL, last_seq INTEGER NOT NULL, frames INTEGER NOT NULL);
CREATE TABLE raw_thread(utid INTEGER PRIMARY KEY, upid INTEGER NOT NULL, thread INTEGER NOT NULL,
  first_seq INTEGER NOT NULL, last_seq INTEGER NOT NULL, frames INTEGER NOT NULL,
  last_record INTEGER, last_write INTEGER);

-- A row for each frame, empty ones too.
--   place       of its frame header
--   direction   1 a write, 2 a read
--   records     how many records it has
CREATE TABLE raw_frame(seq INTEGER PRIMARY KEY, place INTEGER NOT NULL, utid INTEGER NOT NULL,
  direction INTEGER NOT NULL, command_length INTEGER NOT NULL, attachment_length INTEGER NOT NULL,
  records INTEGER NOT NULL);

-- A row for each record, opaque ones too. A field that the record does not have is NULL.
--   seq, utid    of its frame
--   kind         the number in docs/COMMANDS.md of a BC_ record, and that number plus 256 of a BR_ record; 514 of
--                BR_TRANSACTION_SEC_CTX; 255 of a record without a name there in a write frame, 511 in a read frame
--   handle       the target of BC_TRANSACTION and BC_TRANSACTION_SG; the handle of BC_INCREFS, BC_ACQUIRE, BC_RELEASE,
--                BC_DECREFS, BC_ATTEMPT_ACQUIRE, and of requests and clears of death and freeze notifications
--   ptr          the target of BR_TRANSACTION and BR_TRANSACTION_SEC_CTX; the ptr of BR_INCREFS, BR_ACQUIRE,
--                BR_RELEASE, BR_DECREFS, BC_INCREFS_DONE, BC_ACQUIRE_DONE and BR_ATTEMPT_ACQUIRE
--   cookie       of all that have a ptr, and of the records of death and freeze notifications
--   address      the field buffer of the seven transactions and replies, and the address of BC_FREE_BUFFER
--   code to offsets   fields of the seven transactions and replies; sender_pid has a sign
--   extra        buffers_size of the two _SG forms, secctx of BR_TRANSACTION_SEC_CTX
--   attachment   the place of the record's attachment entry; NULL without one
--   status       of a BR_REPLY with TF_STATUS_CODE and four bytes of data, the number that they are, with a sign; NULL
--                if they are not in the capture
--   value        the code word of a record without a name; is_frozen of BR_FROZEN_BINDER. With a sign: the error of
--                BR_ERROR, the result of BC_ACQUIRE_RESULT and BR_ACQUIRE_RESULT, the priority of BC_ATTEMPT_ACQUIRE
--                and BR_ATTEMPT_ACQUIRE
--   interface    the id in raw_interface of the interface with which the data of a transaction begin, or of the one
--                that is all of the data of a reply; NULL if they name none
--   service      the id in raw_service of the name that comes after the interface android.os.IServiceManager in the
--                data of a transaction; NULL without one
-- The name of an interface is looked for in transactions whose code is one of a method: from 1 to 0x00ffffff, and for
-- HIDL also from 0x0f000000 to 0x0fffffff, where the methods of IBase are. Their data begin so, numbers with four bytes,
-- the lowest first:
--   Android 9 and before   the strict mode, a String16
--   Android 10             the strict mode, the work source, a String16
--   since Android 11       the strict mode, the work source, SYST, VNDR, RECO or UNKN as a number, a String16
--   HIDL                   in ASCII the package with its version, two colons, the name, and a NUL
-- A String16 is the number of its units, the units in UTF-16, a NUL unit, and zeros up to a multiple of four bytes. A
-- name has at most 256 characters and is identifiers with dots between them, of letters, digits, _ and $. Other data
-- may begin with a number and a text, so a name must also have a dot, and an I after the last dot, as in
-- android.os.IServiceManager; after SYST and the like neither is needed. The reply to the code _NTF, 0x5f4e5446, is one
-- String16, the interface of the node that is asked.
-- The name of a service is a String16 right after the interface android.os.IServiceManager, of 1 to 256 letters, digits
-- and the signs . _ - / : @ and $.
-- The target of a reply means nothing, so BC_REPLY, BC_REPLY_SG and BR_REPLY have no handle, ptr or cookie. A sent
-- transaction goes to a handle and a received one to a ptr and a cookie; the other reading of these bytes is left out.
-- Indexes are those that a query of the page, or of docs/DATABASE.md, was measured to need: nodes.sql begins with them.
-- A look at all records of a capture of 82 MB takes a quarter of a second.
CREATE TABLE raw_record(place INTEGER PRIMARY KEY, seq INTEGER NOT NULL, utid INTEGER NOT NULL, kind INTEGER NOT NULL,
  handle INTEGER, ptr INTEGER, cookie INTEGER, address INTEGER, code INTEGER, flags INTEGER, sender_pid INTEGER,
  sender_euid INTEGER, data_size INTEGER, offsets_size INTEGER, offsets INTEGER, extra INTEGER, attachment INTEGER,
  status INTEGER, value INTEGER, interface INTEGER, service INTEGER);

-- A row for each name of an interface, and of a service, in the order of the first records that have it.
--   id        1, 2 and so on
--   name      in ASCII
CREATE TABLE raw_interface(id INTEGER PRIMARY KEY, name TEXT NOT NULL);
CREATE TABLE raw_service(id INTEGER PRIMARY KEY, name TEXT NOT NULL);

-- A row for each object of an attachment, up to the first bad one, which has a row too (docs/REPORT.md#objects). Of a
-- bad object only place, idx, offset and bad are there.
--   place                   of the record that owns the attachment
--   idx, offset             the number in the list of offsets, from 0, and the offset in the list; both 0 of ListLength
--   sort                    its four bytes as a number, for example 0x73622a85
--   flags                   of BINDER, WEAK_BINDER, HANDLE, WEAK_HANDLE and PTR
--   binder                  of BINDER and WEAK_BINDER
--   handle                  of HANDLE and WEAK_HANDLE
--   fd                      of FD
--   cookie                  of BINDER, WEAK_BINDER, HANDLE, WEAK_HANDLE and FD
--   num_fds                 of FDA
--   buffer, length          of PTR
--   parent, parent_offset   of PTR and FDA
--   bad                     1 ListLength, 2 Misaligned, 3 Overlap, 4 Short, 5 UnknownSort; NULL of a good object
CREATE TABLE raw_object(place INTEGER NOT NULL, idx INTEGER NOT NULL, offset INTEGER NOT NULL, sort INTEGER,
  flags INTEGER, binder INTEGER, handle INTEGER, fd INTEGER, cookie INTEGER, num_fds INTEGER, buffer INTEGER,
  length INTEGER, parent INTEGER, parent_offset INTEGER, bad INTEGER);

-- A row for each call that a thread makes or gets to serve, answered and replied ones too. Openers, closers and
-- verdicts follow docs/REPORT.md#calls-of-each-thread to the letter.
--   place, seq   of the opener
--   served       0 a call that the thread makes, 1 one that it gets to serve
--   depth        1 more than that of its parent; 1 without one
--   parent       the place of the last call of the thread before it that is not closed before it; NULL without one
--   verdict      0 open, 1 answered, 2 replied, 3 failed, 4 crossed
--   closer       the place of the record that closes it; NULL of an open call
--   dur_seq      the closer's seq less the opener's; NULL of an open call
CREATE TABLE raw_call(place INTEGER PRIMARY KEY, seq INTEGER NOT NULL, utid INTEGER NOT NULL, served INTEGER NOT NULL,
  depth INTEGER NOT NULL, parent INTEGER, verdict INTEGER NOT NULL, closer INTEGER, dur_seq INTEGER);

-- A row for each generation of a handle: a span in which the handle of a process means one object, as far as its
-- references show. Once a process has let go of its last reference by a handle, the driver may give the number to
-- another object.
-- A record of a process names a handle if it is BC_TRANSACTION or BC_TRANSACTION_SG to it, if it is another record with
-- handle in raw_record, or if it is a transaction or reply, sent or delivered, with a good HANDLE or WEAK_HANDLE object
-- of it. Within a record the target comes first, then the objects by idx.
-- Begin: the first record that names a handle of a process begins generation 1 of it. After the end of a generation,
-- the next BC_ACQUIRE, BC_INCREFS, or object in a delivery (BR_TRANSACTION, BR_TRANSACTION_SEC_CTX, BR_REPLY) that
-- names the handle begins the next one. Any other record that names the handle before that belongs to the ended
-- generation.
-- Counts: strong, weak, held_strong and held_weak begin at 0. BC_ACQUIRE raises strong and BC_RELEASE lowers it,
-- BC_INCREFS raises weak and BC_DECREFS lowers it. A count of 0 is not lowered, since the driver ignores such a record.
-- Each HANDLE object of a delivery raises held_strong by one, and each WEAK_HANDLE object held_weak, until the delivery
-- is freed.
-- End: BC_RELEASE or BC_DECREFS of the handle, or a BC_FREE_BUFFER that frees a delivery with an object of it, ends the
-- generation if all four counts are 0 after it. A generation of handle 0 never ends: 0 is always the context manager.
-- Rows are in the order of begin, and of one begin in the order in which the record names the handles.
--   id                      1, 2 and so on
--   n                       1 of the first generation of this handle of this process, then 2 and so on
--   begin, end              the places of the records that begin and end it; end is NULL if none does
--   given_by                the place of its first delivery that has an object of the handle; NULL if none has
--   held_since              the place of the BC_ACQUIRE that last raised strong from 0; NULL if strong is 0 at the end
--   acquired to decrefs     how many BC_ACQUIRE, BC_RELEASE, BC_INCREFS and BC_DECREFS name it, ignored ones too
--   strong to held_weak     the four counts at the end of the capture; all 0 of an ended generation
-- In the report's row of a handle, strong is acquired less released over all its generations, weak is increfs less
-- decrefs, and the held counts come from the last generation.
CREATE TABLE raw_generation(id INTEGER PRIMARY KEY, upid INTEGER NOT NULL, handle INTEGER NOT NULL, n INTEGER NOT NULL,
  begin INTEGER NOT NULL, end INTEGER, given_by INTEGER, held_since INTEGER, acquired INTEGER NOT NULL,
  released INTEGER NOT NULL, increfs INTEGER NOT NULL, decrefs INTEGER NOT NULL, strong INTEGER NOT NULL,
  weak INTEGER NOT NULL, held_strong INTEGER NOT NULL, held_weak INTEGER NOT NULL);

-- A row for each BC_TRANSACTION, BC_TRANSACTION_SG, BC_REPLY and BC_REPLY_SG: what became of it.
--   generation   the id of the generation of its target handle; NULL of a reply
--   confirmed    the place of the confirmation of it that the thread read; NULL without one
--   refused      the place of the error reply by which the driver refused it; NULL without one
--   delivery     the place of its delivery; NULL if none was found
--   certain      1 if it is certain that this process and this handle sent what was delivered, else 0; NULL without a
--                delivery
--   fits         how many sends the delivery may have come from; if 1, it was this one. NULL without a delivery
-- confirmed, refused: each thread has a queue of sends that wait to be confirmed, empty at first. A send joins its end.
-- A confirmation (BR_TRANSACTION_COMPLETE, BR_ONEWAY_SPAM_SUSPECT, BR_TRANSACTION_PENDING_FROZEN) takes out the first
-- one and is its `confirmed`. An error reply (BR_DEAD_REPLY, BR_FAILED_REPLY, BR_FROZEN_REPLY) takes out the first one
-- and is its `refused`. If the queue is empty, neither does anything. Unlike the report's rule for refused sends, this
-- also finds the sends of docs/REPORT.md#several-sends-in-one-write.
-- delivery of a transaction: the driver hands these on unchanged, so the send and the delivery (BR_TRANSACTION or
-- BR_TRANSACTION_SEC_CTX) must agree in them: the device, code, flags, data_size, offsets_size, and the sum of the
-- body. Together they are the key. The sum is FNV-1a of 64 bits: it begins at 0xcbf29ce484222325; for each byte,
-- exclusive or, then times 0x100000001b3 modulo 2^64. It covers the body bytes that lie in no good object, in order,
-- and if there is a bad object, everything after the last good one. If both sizes are 0 it is the sum of no bytes, with
-- or without an entry; otherwise a record without an entry has the sum 0.
-- Candidates of a delivery are the sends of its key that come before it; of calls only those that are not closed before
-- it. One that is refused is a candidate only if a frame is missing before the send, since the error may then be that
-- of another send. The send of the delivery is none of these:
-- 1. one that is sure to be that of another delivery
-- 2. one whose generation is known to mean another node. Of those of which no node is known: one of the process of the
--    delivery, as no process has a handle of its own node; and one whose process has at that time another generation
--    that is known to mean the node, as no process has two handles of a node. Two generations of a process are there at
--    a time if each begins before the other one ends. Of a process and a node the first 16 such others are asked
-- 3. a call that ranks behind another one. The rank of a call is 1 if it and the served call do not lie as they should,
--    and 2 more if sender_pid is not as it should be
-- 4. a oneway one that the driver took after the first fresh one. Fresh is a candidate that is not refused and from
--    which no delivery before may have come. The driver delivers what is sent to a node in the order in which it took
--    it. It took one send after another one if one thread made both, or if the earlier one was confirmed before the
--    later one. With TF_UPDATE_TXN nothing is said, as the driver drops an earlier send for a later one. This rule is
--    for deliveries by 'All sends are there' alone, and only if all that the rules before leave are of one generation
-- What is left are those that it may have come from. They are looked for among the first 64 candidates, without those
-- that are known to go to another node, in this order: those that are known to go to the node and that no guess has
-- taken, those of which no node is known, and then the two kinds that a guess has taken.
-- When a pair is certain:
--    All sends are there: the send must be in the capture, all candidates were looked at, the least rank is 0, and all
--    that the delivery may have come from are of one generation. If it is only one, the pair is sure.
--    It must have come: a call that is answered was delivered. If no frame is missing between the call and the answer,
--    if at each delivery all candidates of its key were looked at, and if only one delivery may have come from it, with
--    rank 0, and from no other one that must have come so, the pair is sure.
-- Any other pair is a guess: certain is 0. fits is how many it may have come from; 1 more if its send need not be in
-- the capture, if not all were looked at, or if the least rank is not 0. It takes the best one that no other one has
-- taken: those first that were known to go to the node before a frame was missing; none that is refused, or was known
-- to go to another node; then the first of oneway sends, and of calls the one whose closer has the least place, an open
-- one last. If all are of one generation, the choice is the same, and certain is 1.
-- A send that was taken by guess stays a candidate of later deliveries, and so do all that might have been taken in its
-- place. If the send must be in the capture, all candidates were looked at and the least rank is 0, and the pair is not
-- sure, all that the delivery may have come from are in doubt, and one of them came. When as many came as there are
-- sends of the key in doubt, none of them is a candidate any more. A call in doubt that is closed counts as one that
-- came: it is not in doubt any more, and one fewer came. A send in doubt whose pair becomes sure is only not in doubt.
-- The send of a delivery must be in the capture if one of these holds:
--    No frame is missing before the delivery, and nothing in the whole capture shows that its process is older. It is
--    older if a read is the first frame of one of its threads, or if a thread that has not yet written BC_ENTER_LOOPER
--    or BC_REGISTER_LOOPER gets a oneway transaction, or a call while it is in no other one.
--    Before the delivery, and after the last frame that is missing, a thread of its process was told by BR_INCREFS or
--    BR_ACQUIRE that there are references to the node now, and had another frame between the missing one and that. Then
--    the first handle of the node was made since the missing one, and no send from before it is a candidate.
-- A generation is known to mean a node if all that was learnt of it says so. It is learnt, and known, only where no
-- frame is missing since its begin: by a delivery for which all that are left are of one generation and certain is 1,
-- that this generation means the node; and by a sure pair, or the sure pair of a reply, of each object that it hands
-- over. If that is a BINDER for one side and a HANDLE for the other, the generation of the handle means the node of the
-- BINDER; if it is a HANDLE for both, their generations mean the same. So for WEAK_BINDER and WEAK_HANDLE. At the end
-- of a walk what was learnt of a generation is learnt of each that means the same: such pairs are gone through, in the
-- order in which they were found, until that brings nothing more, or sixteen times.
-- The capture is walked up to five times, the first time without oneway transactions, until a walk brings nothing new.
-- Sure pairs are kept; what is learnt on a walk is known on the next one, and guesses are those of the last one.
-- How the calls should lie matters for calls alone, not for oneway transactions. Let c be the row of raw_call of the
-- call that is sent, and d the row of the served one:
--    d is replied and c is answered: the two replies have the same key, and the BC_REPLY comes before the BR_REPLY.
--    d is replied and c is not answered: c is open, or its closer comes after the BC_REPLY.
--    d is not replied: c is not answered.
-- If a frame is missing in c or d, or after one that is open, what closes it is not known, and they do.
-- sender_pid matters for calls alone too. It is as it should be if it is 0 or the sender's process number, or if that
-- number is 4,194,304 or more: `./record` gives such a number to a process whose id is taken.
-- delivery of a reply: if a BC_REPLY closes a served call as replied, if that served call is the delivery of a call,
-- and if a BR_REPLY of the same key answers that call, then this BR_REPLY is the delivery. certain and fits are those
-- of the call; but if a frame is missing from its send to the BR_REPLY, certain is 0, and fits is 1 more.
CREATE TABLE raw_send(place INTEGER PRIMARY KEY, seq INTEGER NOT NULL, utid INTEGER NOT NULL, generation INTEGER,
  confirmed INTEGER, refused INTEGER, delivery INTEGER, certain INTEGER, fits INTEGER);

-- A row for each BR_TRANSACTION, BR_TRANSACTION_SEC_CTX and BR_REPLY: a buffer that a process got. A free frees all
-- earlier deliveries of its address that are not freed.
--   utid       the thread that read it
--   freed_by   the place of the first later BC_FREE_BUFFER of its process with its address; NULL if there is none: then
--              it is leaked, as in the report
--   dur_seq    the seq of that less its own; NULL without freed_by
--   call       for a transaction that opens a served call, its own place; for a BR_REPLY, the place of the call that it
--              closes as answered; otherwise NULL
--   send       the place of the send that it delivers; NULL if none was found
--   held       how many deliveries of its path the process has not freed right after it, itself included
-- The path of a transaction is its code, ptr, cookie, and whether it is oneway. The path of a BR_REPLY with a call is
-- the code and the handle of that call. All BR_REPLY of a process without one have one path.
CREATE TABLE raw_delivery(place INTEGER PRIMARY KEY, seq INTEGER NOT NULL, utid INTEGER NOT NULL, freed_by INTEGER,
  dur_seq INTEGER, call INTEGER, send INTEGER, held INTEGER NOT NULL);

-- The 16 slices of a capture that has frames. A frame is in the last slice that does not begin after it.
--   slice       0 to 15
--   first_seq   where it begins: first_seq + slice * (last_seq - first_seq + 1) / 16 of the capture, rounded up. With
--               fewer than 16 sequences, several slices begin at one
CREATE TABLE raw_slice(slice INTEGER PRIMARY KEY, first_seq INTEGER NOT NULL);

-- What each process holds at most in each slice of the capture. A slice starts from the level at the end of the slice
-- before, so a slice in which a level does not change, or only falls, has the level that it began with.
--   slice     each process has all 16
--   buffers   deliveries that are not freed
--   bytes     the sum of their data_size; 2^63 - 1 if it is above that
--   refs      the sum of strong over all generations of the process
--   calls     calls that it makes and that are open
--   served    calls that it serves and that are open
CREATE TABLE raw_level(upid INTEGER NOT NULL, slice INTEGER NOT NULL, buffers INTEGER NOT NULL, bytes INTEGER NOT NULL,
  refs INTEGER NOT NULL, calls INTEGER NOT NULL, served INTEGER NOT NULL);

-- ---- what `./view` adds: the side list, the proved report, and the findings of the rules

CREATE TABLE side_device(device INTEGER PRIMARY KEY, name TEXT NOT NULL, driver TEXT) STRICT;
CREATE TABLE side_process(device INTEGER, process INTEGER, pid INTEGER, opening INTEGER, met TEXT, name TEXT,
  opened INTEGER, ended_after INTEGER, ended INTEGER, command TEXT, uid INTEGER,
  of_zygote INTEGER NOT NULL DEFAULT 0, -- 1 if it collects garbage: a process that Android's zygote forked
  PRIMARY KEY(device, process)) STRICT;
CREATE TABLE side_thread(device INTEGER, process INTEGER, thread INTEGER, tid INTEGER, name TEXT, ended_after INTEGER,
  ended INTEGER, why TEXT, from_seq INTEGER, bits INTEGER, PRIMARY KEY(device, process, thread)) STRICT;
-- A line `name` or `end pid` names a thread or a process by the system's number.
CREATE INDEX side_process_of_pid ON side_process(pid);
CREATE INDEX side_thread_of_tid ON side_thread(tid);
CREATE TABLE side_time(seq INTEGER PRIMARY KEY, ts INTEGER NOT NULL) STRICT;
-- What other clocks showed at a time after the beginning: after each sleep of the system, after the wall clock was set,
-- and at the end.
CREATE TABLE side_clock(ts INTEGER PRIMARY KEY, realtime INTEGER NOT NULL, boottime INTEGER NOT NULL) STRICT;
CREATE TABLE side_lost(seq INTEGER PRIMARY KEY, device INTEGER, process INTEGER, thread INTEGER, why TEXT) STRICT;
-- The methods of these interfaces, as far as they are known, and those that all objects have.
CREATE TABLE method(interface TEXT, code INTEGER, method TEXT NOT NULL, source TEXT NOT NULL,
  PRIMARY KEY(interface, code)) STRICT;
-- The interface of each code at a node, that of each node, and the service that a node is. In names.sql.
CREATE TABLE call_interface(code INTEGER, upid INTEGER, ptr INTEGER, interface INTEGER NOT NULL,
  others INTEGER NOT NULL, PRIMARY KEY(code, upid, ptr)) STRICT;
CREATE TABLE object_interface(upid INTEGER, ptr INTEGER, interface INTEGER NOT NULL, n INTEGER NOT NULL,
  others INTEGER NOT NULL, PRIMARY KEY(upid, ptr)) STRICT;
CREATE TABLE object_service(upid INTEGER, ptr INTEGER, service INTEGER, registered INTEGER, n INTEGER NOT NULL,
  others INTEGER NOT NULL, PRIMARY KEY(upid, ptr)) STRICT;
CREATE TABLE side_missed(id INTEGER PRIMARY KEY, what TEXT NOT NULL, count INTEGER NOT NULL, from_seq INTEGER NOT NULL,
  after INTEGER NOT NULL, ts INTEGER NOT NULL) STRICT;
-- What the driver logged of transactions that failed, and between which looks at its log it may have logged more. `answer`
-- is the kind of the record in raw_record that tells of it.
CREATE TABLE side_failed(id INTEGER PRIMARY KEY, what TEXT NOT NULL, pid INTEGER NOT NULL, tid INTEGER NOT NULL,
  to_pid INTEGER NOT NULL, handle INTEGER NOT NULL, data_size INTEGER NOT NULL, offsets_size INTEGER NOT NULL,
  answer INTEGER, errno INTEGER NOT NULL, from_seq INTEGER NOT NULL, after INTEGER NOT NULL, ts INTEGER NOT NULL) STRICT;
CREATE TABLE side_overrun(from_seq INTEGER NOT NULL, after INTEGER NOT NULL, ts INTEGER NOT NULL) STRICT;
-- How many descriptors a process had open that receives some, and how many it may have.
CREATE TABLE side_descriptors(id INTEGER PRIMARY KEY, device INTEGER NOT NULL, process INTEGER NOT NULL,
  ts INTEGER NOT NULL, open INTEGER NOT NULL, most INTEGER NOT NULL, why TEXT NOT NULL) STRICT;
CREATE TABLE side_calls(device INTEGER, process INTEGER, thread INTEGER, made INTEGER NOT NULL,
  served INTEGER NOT NULL, PRIMARY KEY(device, process, thread)) STRICT;
CREATE TABLE side_handle(device INTEGER, process INTEGER, handle INTEGER, PRIMARY KEY(device, process, handle)) STRICT;
-- The copies of the driver's books that are beside the side list, and what openings of the capture had in its book
-- `state`. Tables and columns are in docs/DATABASE.md; load_books.py fills them.
CREATE TABLE book(moment TEXT NOT NULL, what TEXT NOT NULL, from_seq INTEGER NOT NULL, after INTEGER NOT NULL,
  ts INTEGER NOT NULL, PRIMARY KEY(moment, what)) STRICT;
CREATE TABLE book_opening(moment TEXT NOT NULL, upid INTEGER NOT NULL, quiet INTEGER NOT NULL, deaths INTEGER NOT NULL,
  clears INTEGER NOT NULL, freezes INTEGER NOT NULL, freeze_clears INTEGER NOT NULL, loopers INTEGER NOT NULL,
  driver TEXT NOT NULL, PRIMARY KEY(moment, upid)) STRICT;
CREATE TABLE book_handle(moment TEXT NOT NULL, upid INTEGER NOT NULL, handle INTEGER NOT NULL, strong INTEGER NOT NULL,
  weak INTEGER NOT NULL, dead INTEGER NOT NULL, requested INTEGER, node_upid INTEGER, ptr INTEGER,
  cookie INTEGER, PRIMARY KEY(moment, upid, handle)) STRICT;
CREATE TABLE book_node(moment TEXT NOT NULL, upid INTEGER NOT NULL, ptr INTEGER NOT NULL, cookie INTEGER NOT NULL,
  strong INTEGER NOT NULL, weak INTEGER NOT NULL, local_strong INTEGER, local_weak INTEGER,
  PRIMARY KEY(moment, upid, ptr, cookie)) STRICT;
CREATE TABLE book_buffer(moment TEXT NOT NULL, upid INTEGER NOT NULL, number INTEGER NOT NULL, address INTEGER NOT NULL,
  data_size INTEGER, offsets_size INTEGER, unread INTEGER NOT NULL,
  PRIMARY KEY(moment, upid, number)) STRICT;
CREATE TABLE book_call(id INTEGER PRIMARY KEY, moment TEXT NOT NULL, upid INTEGER NOT NULL, utid INTEGER,
  tid INTEGER NOT NULL, side TEXT NOT NULL, number INTEGER, code INTEGER, server_pid INTEGER, server_tid INTEGER) STRICT;
CREATE INDEX book_call_of ON book_call(moment, upid, number);
CREATE TABLE book_process(upid INTEGER PRIMARY KEY, device INTEGER NOT NULL, pid INTEGER NOT NULL, name TEXT) STRICT;
CREATE TABLE book_open(number INTEGER NOT NULL, upid INTEGER NOT NULL, utid INTEGER, tid INTEGER NOT NULL,
  place INTEGER NOT NULL, server INTEGER NOT NULL, server_utid INTEGER, server_tid INTEGER, delivery INTEGER,
  code INTEGER NOT NULL, ptr INTEGER, cookie INTEGER) STRICT;
CREATE TABLE book_stats(moment TEXT NOT NULL, upid INTEGER NOT NULL, requested INTEGER NOT NULL,
  started INTEGER NOT NULL, most INTEGER NOT NULL, oneway_free INTEGER, PRIMARY KEY(moment, upid)) STRICT;
-- The packages of the device, as packages.py finds them beside the side list.
CREATE TABLE package(uid INTEGER, name TEXT, PRIMARY KEY(uid, name)) STRICT;
CREATE TABLE disagreement(id INTEGER PRIMARY KEY, upid INTEGER NOT NULL, section TEXT NOT NULL, what TEXT NOT NULL,
  report INTEGER NOT NULL, books INTEGER NOT NULL) STRICT;
-- The stacks of calls. A memory is that of a process, from its start or from exec on; idx 0 is the innermost function,
-- and pc is where it goes on. A map is told with the address that the symbols of its file have where it starts.
CREATE TABLE side_call(seq INTEGER PRIMARY KEY, stack INTEGER NOT NULL) STRICT;
CREATE TABLE side_pc(stack INTEGER, idx INTEGER, memory INTEGER NOT NULL, pid INTEGER NOT NULL, pc INTEGER NOT NULL,
  PRIMARY KEY(stack, idx)) STRICT;
CREATE TABLE side_map(memory INTEGER, start INTEGER, end INTEGER NOT NULL, address INTEGER NOT NULL, build_id TEXT,
  path TEXT NOT NULL, PRIMARY KEY(memory, start)) STRICT;
CREATE TABLE side_unstacked(id INTEGER PRIMARY KEY, what TEXT NOT NULL, count INTEGER NOT NULL,
  from_seq INTEGER NOT NULL, after INTEGER NOT NULL) STRICT;
-- What the files of --symbols say of these addresses. `inlined` is 0 for the innermost function at an address, and
-- rises to the one into which the others were put.
CREATE TABLE symbol(build_id TEXT, address INTEGER, inlined INTEGER, function TEXT NOT NULL, source TEXT,
  PRIMARY KEY(build_id, address, inlined)) STRICT;
-- A number for the data of a transaction: the same data have the same one. data_hash.py fills it, for all of them, or of a
-- large capture that is not kept for calls that come again and again.
CREATE TABLE data_hash(place INTEGER PRIMARY KEY, hash INTEGER NOT NULL) STRICT;
-- The exceptions with which replies begin, by EXCEPTIONS of exceptions.py: of all of them, or of a large capture that is
-- not kept of methods whose last reply has one.
CREATE TABLE exception(place INTEGER PRIMARY KEY, number INTEGER NOT NULL) STRICT;
-- What transactions and replies say, where that is asked for: recorded.py of arguments/ fills it.
CREATE TABLE argument(place INTEGER PRIMARY KEY, text TEXT NOT NULL) STRICT;
CREATE TABLE capture(key TEXT PRIMARY KEY, value);
-- A row has the columns of its section (report.py), and NULL in the others.
CREATE TABLE report(id INTEGER PRIMARY KEY, section TEXT NOT NULL, place INTEGER, device INTEGER, process INTEGER,
  text TEXT NOT NULL, what TEXT, thread INTEGER, sender_pid INTEGER, handle INTEGER, code INTEGER, closer INTEGER,
  ptr INTEGER, cookie INTEGER, strong INTEGER, strong_low INTEGER, weak INTEGER, weak_low INTEGER,
  held_strong INTEGER, held_weak INTEGER, strong_due INTEGER, weak_due INTEGER, address INTEGER, data_size INTEGER,
  idx INTEGER, at INTEGER, code_word INTEGER, name TEXT, count INTEGER, sum INTEGER) STRICT;
-- about.sql has what the columns mean. n_all is NULL where a path is not counted: for handles that are let go of or that
-- no delivery gave, for nodes, requests, deaths, clears, frees and flags, and for replies that are sent. later counts
-- calls no deeper than the finding itself; for what is neither a call nor its buffer, it counts write frames. path is
-- the text of code and the columns from relation to calls, which paths.sql fills; texts.sql makes it, and until then it
-- is NULL. So texts.sql makes note of said, with what note has then.
CREATE TABLE finding(
  id INTEGER PRIMARY KEY,
  report INTEGER,
  section TEXT NOT NULL,
  what TEXT NOT NULL,
  place INTEGER,
  seq INTEGER,
  upid INTEGER NOT NULL,
  utid INTEGER,
  handle INTEGER,
  code INTEGER,
  ptr INTEGER,
  cookie INTEGER,
  generation INTEGER,
  target INTEGER,
  relation TEXT,          -- by RELATIONS of paths.py
  about INTEGER,
  node INTEGER,
  interface TEXT,
  others INTEGER,
  method TEXT,
  service TEXT,
  way INTEGER,
  giver INTEGER,
  status INTEGER,
  calls TEXT,
  path TEXT,
  n_all INTEGER,
  n_good INTEGER,
  longest_seq INTEGER,
  longest INTEGER,
  age_seq INTEGER,
  age INTEGER,
  later INTEGER,
  lead INTEGER,
  waiting INTEGER,
  rule TEXT,
  said TEXT,
  other INTEGER,
  other_upid INTEGER,
  how_many INTEGER,
  of_how_many INTEGER,
  how_long INTEGER,
  usually INTEGER,
  note TEXT,
  culprit INTEGER
) STRICT;
