/* Lists of things that have a link of the list inside. A list is a link too: the first and the last thing are beside it. */
#ifndef RECORDER_LINK_H
#define RECORDER_LINK_H
#include <stddef.h>

struct link {
	struct link *before, *next;
};

#define LINK_LIST(name) { &(name), &(name) }
/* The thing whose `member` the link is. */
#define LINKED(link, type, member) ((type *)(void *)((char *)(link) - offsetof(type, member)))

static inline void link_begin(struct link *list)
{
	list->before = list->next = list;
}

static inline int link_is_alone(const struct link *link)
{
	return link->next == link;
}

/* Puts the link before another one: before a list, as its last one. */
static inline void link_put_before(struct link *other, struct link *link)
{
	link->before = other->before;
	link->next = other;
	other->before->next = link;
	other->before = link;
}

/* Takes the link out of its list. It is alone then. */
static inline void link_take_out(struct link *link)
{
	link->before->next = link->next;
	link->next->before = link->before;
	link_begin(link);
}
#endif
