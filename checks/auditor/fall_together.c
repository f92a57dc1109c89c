/* Prints numbers whose hashes collide, for checks/load: as many as the first argument says, one in a line. The further
   arguments are the numbers that are hashed before: a device, for numbers of its processes; or a device and a process,
   for numbers of the threads of that process.

   The auditor keeps processes in a map of `indexmap`, and threads in another, with open addressing and a hasher of
   fixed seed (`FoldHasher`). The hasher takes in a number of 32 bits with the product below, and joins the two halves
   of 64 bits by xor. For a process it takes in the device and then the process number, for a thread also the thread
   number. The hash is the result, its two halves of 32 bits joined by xor. The low bits say in which group of twelve
   entries a look-up begins, and the highest 8 bits which entries of a group it compares. The numbers printed agree in
   the highest 8 bits, and begin in one of the first two groups of 2,048, which is how many groups 10,000 entries have;
   with fewer groups they begin in the first two as well. So a look-up goes through the full groups one by one, and
   compares every entry there. */
#include <stdint.h>
#include <stdio.h>
#include <stdlib.h>

static const uint64_t SEED = 0x243f6a8885a308d3;

static uint64_t taken_in(uint64_t state, uint32_t number)
{
	uint64_t read = number | (uint64_t)number << 32;
	unsigned __int128 product = (unsigned __int128)(state ^ read) * (0x9e3779b97f4a7c15 ^ 8);
	return (uint64_t)product ^ (uint64_t)(product >> 64);
}

int main(int count, char **words)
{
	long left = count > 1 ? atol(words[1]) : 0;
	uint64_t before = SEED;
	for (int at = 2; at < count; at++)
		before = taken_in(before, (uint32_t)atol(words[at]));
	for (uint64_t number = 1; left > 0 && number < (uint64_t)1 << 32; number++) {
		uint64_t state = taken_in(before, (uint32_t)number);
		uint32_t found = (uint32_t)(state ^ state >> 32);
		if (found >> 24 == 1 && (found & 2047) < 2) {
			printf("%u\n", (unsigned)number);
			left--;
		}
	}
	return left == 0 ? 0 : 1;
}
