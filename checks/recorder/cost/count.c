/* A plugin of QEMU that counts the instructions of a guest: those of its kernel, and those of its programs. When the
 * guest is at the address of MARK, it writes both counts to a file, a line each time. The guest's processors take turns
 * on one thread, so a count has one writer.
 *
 *     -plugin count.so,to=FILE
 *
 * Debian 12 has no header of this interface; these are its declarations, as QEMU 7.2 has them. */
#include <inttypes.h>
#include <stdio.h>
#include <string.h>
#include "mark.h"

typedef uint64_t qemu_plugin_id_t;
struct qemu_plugin_tb;
enum qemu_plugin_cb_flags { QEMU_PLUGIN_CB_NO_REGS };
enum qemu_plugin_op { QEMU_PLUGIN_INLINE_ADD_U64 };
typedef void (*tb_trans_callback)(qemu_plugin_id_t, struct qemu_plugin_tb *);
typedef void (*tb_exec_callback)(unsigned int vcpu, void *data);
void qemu_plugin_register_vcpu_tb_trans_cb(qemu_plugin_id_t, tb_trans_callback);
void qemu_plugin_register_vcpu_tb_exec_cb(struct qemu_plugin_tb *, tb_exec_callback, enum qemu_plugin_cb_flags,
					  void *data);
void qemu_plugin_register_vcpu_tb_exec_inline(struct qemu_plugin_tb *, enum qemu_plugin_op, void *, uint64_t);
size_t qemu_plugin_tb_n_insns(const struct qemu_plugin_tb *);
uint64_t qemu_plugin_tb_vaddr(const struct qemu_plugin_tb *);

#define VISIBLE __attribute__((visibility("default")))

VISIBLE int qemu_plugin_version = 1;

static uint64_t of_kernel, of_programs;
static FILE *to;

static void write_counts(unsigned int vcpu, void *data)
{
	(void)vcpu, (void)data;
	fprintf(to, "%" PRIu64 " %" PRIu64 "\n", of_kernel, of_programs);
	fflush(to);
}

/* Called once for each block of instructions: has those counted each time that the block runs. */
static void translated(qemu_plugin_id_t id, struct qemu_plugin_tb *block)
{
	(void)id;
	uint64_t address = qemu_plugin_tb_vaddr(block);
	uint64_t *count = address >> 63 ? &of_kernel : &of_programs;
	qemu_plugin_register_vcpu_tb_exec_inline(block, QEMU_PLUGIN_INLINE_ADD_U64, count,
						 qemu_plugin_tb_n_insns(block));
	if (address == MARK) qemu_plugin_register_vcpu_tb_exec_cb(block, write_counts, QEMU_PLUGIN_CB_NO_REGS, NULL);
}

VISIBLE int qemu_plugin_install(qemu_plugin_id_t id, const void *info, int count, char **words)
{
	(void)info;
	if (count != 1 || strncmp(words[0], "to=", 3) || !(to = fopen(words[0] + 3, "w"))) return 1;
	qemu_plugin_register_vcpu_tb_trans_cb(id, translated);
	return 0;
}
