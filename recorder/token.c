#include "token.h"
#include <string.h>

#define LONGEST_NAME 256u
#define STRICT_MODE 4u			/* bytes of the policy that begins every token of a Parcel */
#define WORK_SOURCE 4u			/* since Android 10 */
#define PARTITION 4u			/* since Android 11 */

/* Which part of the system wrote the Parcel, as the four letters of a number. */
static const char partitions[4][5] = { "SYST", "VNDR", "RECO", "UNKN" };

static int is_letter(char one)
{
	return (one >= 'a' && one <= 'z') || (one >= 'A' && one <= 'Z') || one == '_';
}

static int is_digit(char one)
{
	return one >= '0' && one <= '9';
}

/* The length of the identifier at the beginning of the text. */
static size_t identifier(const char *text)
{
	size_t length = 0;
	while (is_letter(text[length]) || (length && (is_digit(text[length]) || text[length] == '$')))
		length++;
	return length;
}

/* Skips `part.part.part`, and says where the last part begins. Returns its length; 0 if it is no such text. */
static size_t dotted(const char *text, size_t *last)
{
	size_t at = 0;
	for (*last = 0;; *last = ++at) {
		size_t length = identifier(text + at);
		if (!length)
			return 0;
		at += length;
		if (text[at] != '.')
			return at;
	}
}

/* Whether the text is a name as android.os.IServiceManager. */
static int is_interface(const char *text)
{
	size_t last, length = dotted(text, &last);
	return length && !text[length] && last && text[last] == 'I';
}

/* Whether the text is a name as android.hardware.nfc@1.0::INfc. */
static int is_versioned_interface(const char *text)
{
	size_t last, length = dotted(text, &last);
	if (!length || !last || text[length] != '@')
		return 0;
	text += length + 1;
	length = strspn(text, "0123456789");
	if (!length || text[length] != '.')
		return 0;
	text += length + 1;
	length = strspn(text, "0123456789");
	text += length;
	if (!length || strncmp(text, "::I", 3))
		return 0;
	length = identifier(text + 2);
	return length && !text[2 + length];
}

/* The bytes of a String16 with the name of an interface: its length, its characters, a 0, and padding to four bytes. */
static u64 interface_in(const u8 *data, u64 count)
{
	char name[LONGEST_NAME + 1];
	u32 length = count >= 4 ? load_u32(data) : 0;
	u64 end = 4 + ((u64)length + 1) * 2, padded = (end + 3) & ~3ull;
	if (!length || length > LONGEST_NAME || padded > count)
		return 0;
	for (u32 i = 0; i < length; i++) {
		name[i] = (char)data[4 + 2 * i];
		if (data[5 + 2 * i] || !name[i])
			return 0;
	}
	name[length] = 0;
	for (u64 i = end - 2; i < padded; i++)
		if (data[i])
			return 0;
	return is_interface(name) ? padded : 0;
}

static int is_partition(const u8 *data)
{
	for (u32 i = 0; i < 4; i++) {
		const char *name = partitions[i];	/* the number has its lowest byte first, so its last letter */
		if (data[0] == name[3] && data[1] == name[2] && data[2] == name[1] && data[3] == name[0])
			return 1;
	}
	return 0;
}

/* A token of a Parcel: numbers, which differ by the version of Android, and the name. */
static u64 parcel_token(const u8 *data, u64 count)
{
	static const u32 heads[] = { STRICT_MODE + WORK_SOURCE + PARTITION, STRICT_MODE + WORK_SOURCE, STRICT_MODE };
	for (u32 i = 0; i < sizeof heads / sizeof *heads; i++) {
		u32 head = heads[i];
		if (count < head || (i == 0 && !is_partition(data + STRICT_MODE + WORK_SOURCE)))
			continue;
		u64 bytes = interface_in(data + head, count - head);
		if (bytes)
			return head + bytes;
	}
	return 0;
}

/* A token of HIDL: the name at once, with a 0 after it. */
static u64 hidl_token(const u8 *data, u64 count)
{
	const u8 *end = memchr(data, 0, count < LONGEST_NAME ? count : LONGEST_NAME);
	if (!end || !is_versioned_interface((const char *)data))
		return 0;
	return (u64)(end - data) + 1;
}

u64 token_bytes(const u8 *data, u64 count)
{
	u64 bytes = parcel_token(data, count);
	return bytes ? bytes : hidl_token(data, count);
}
