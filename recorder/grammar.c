#include "grammar.h"
#include "codes.h"

/* An entry is of a transaction or a reply, and as large as that says. */
static int entry_fits(const struct entry *entry, const struct record *record, enum word_is is)
{
	if (is != WORD_CARRIES)
		return 0;
	struct sizes sizes = record_sizes(record);
	return sizes.data == entry->data && sizes.offsets == entry->offsets;
}

/* After a note that nothing more is attached there is neither a note nor an entry. Any other is of a transaction or a
 * reply. */
static int note_fits(const struct note *note, const struct entry *later, enum word_is is)
{
	return note->reason == REASON_TOO_MANY ? !note->next && !later : is == WORD_CARRIES;
}

/* Each entry and each note is at a record, in the order of the records. So what is left of them at the end is at none. */
int grammar_allows(const struct frame *frame)
{
	const struct entry *entry = frame->entries;
	const struct note *note = frame->notes;
	struct record record;
	if (frame->direction != DIRECTION_WRITE && frame->direction != DIRECTION_READ)
		return 0;
	for (u64 at = 0; at < frame->bytes; at = record.end) {
		if (!record_at(frame->commands, frame->bytes, at, &record))
			return 0;
		enum word_is is = word_is(record.word, frame->direction);
		if (is == WORD_BAD)
			return 0;
		if (entry && entry->record == at) {
			if (!entry_fits(entry, &record, is))
				return 0;
			entry = entry->next;
		}
		for (; note && note->record == at; note = note->next)
			if (!note_fits(note, entry, is))
				return 0;
	}
	return !entry && !note;
}
