/* The interface token at the beginning of a transaction: it names the interface that is called, and is no secret. */
#ifndef RECORDER_TOKEN_H
#define RECORDER_TOKEN_H
#include "common.h"

/* How many bytes of the data are the token; 0 if it does not begin with one. It takes only names that look like those
 * of interfaces: what else begins with a text may be secret. */
u64 token_bytes(const u8 *data, u64 count);
#endif
