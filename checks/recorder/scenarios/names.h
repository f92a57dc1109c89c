/* A manager of names: what Android's have in common, and what is asked of those of Android 11 to 14. */
#ifndef NAMES_H
#define NAMES_H
#include "service.h"

enum { GET_SERVICE = 1, CHECK_SERVICE, ADD_SERVICE, LIST_SERVICES };

#define TOKEN_BYTES 72		/* of its interface, before what is asked */
#define MOST_NAME_BYTES 64
#define INTERFACE_TRANSACTION 0x5f4e5446	/* asks an object for its interface */

/* A parcel that begins with the name of an interface. */
struct parcel parcel_of(const char *interface);
struct parcel parcel_of_manager(void);
void put_number(struct parcel *, uint32_t);
void put_string(struct parcel *, const char *);
/* Reads a string of characters of ASCII, and returns where it ends. */
size_t string_at(const transaction *, size_t at, char *to);

/* Of the manager: the handle that it keeps for a name, or 0. */
uint32_t handle_kept(const char *name);
void keep_handle(struct exchange *, const char *name, uint32_t handle);
/* All names, behind their number. */
void put_names_kept(struct parcel *);

/* Of the others: a strong reference to a service; 0 if there is none of this name. */
uint32_t look_up_named(struct exchange *, const char *name);
#endif
