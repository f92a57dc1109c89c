/* Bytes and numbers of which it is not known before how many there are. What memory is refused for stays as it was. */
#include <stddef.h>
#include <stdint.h>

/* A time of the axis, or a sum of sizes: in a hostile capture neither fits into 64 bits. */
typedef __int128 wide;

struct bytes {
	unsigned char *at;
	size_t length, room;
	int is_refused;		/* memory was refused, and something is missing */
};

void bytes_add(struct bytes *bytes, const void *data, size_t length);
void bytes_add_varint(struct bytes *bytes, unsigned __int128 number);
void bytes_add_decimal(struct bytes *bytes, wide number);
void bytes_add_hexadecimal(struct bytes *bytes, uint64_t number);

/* Bytes that stay as they are; with `at` NULL there are none yet. */
struct text {
	unsigned char *at;
	size_t length;
};

static inline void bytes_add_text(struct bytes *bytes, const struct text *text)
{
	bytes_add(bytes, text->at, text->length);
}

/* Room for one more of so many things of a size; NULL if it is refused, and then all stays as it was. */
void *with_room(void *things, size_t count, size_t *room, size_t size);

/* Up to four numbers by which something is found, and what is found. */
struct key {
	int64_t number[4];
};

struct place {
	struct key key;
	wide value;
	int is_taken;
};

struct found {
	struct place *place;
	size_t places, taken;
	uint64_t salt;
};

static inline void *pointer_of(wide value)
{
	return (void *)(uintptr_t)value;
}

static inline struct key key_of(int64_t number)
{
	return (struct key){ { number, 0, 0, 0 } };
}

/* Where the value of a key is; NULL if it is not there. It stays there until something is put or taken out. */
wide *found_at(const struct found *found, struct key key);

/* Puts a value, maybe in place of another one. Returns whether there was memory. */
int found_put(struct found *found, struct key key, wide value);

/* Takes out a key. Returns whether it was there, and its value. */
int found_take(struct found *found, struct key key, wide *value);
void found_clear(struct found *found);
