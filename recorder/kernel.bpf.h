/* The kernel's structures, with only the fields that are read. libbpf finds the offsets of the fields through BTF. */
#ifndef RECORDER_KERNEL_BPF_H
#define RECORDER_KERNEL_BPF_H
#include <linux/types.h>
#include <linux/bpf.h>
#include <linux/ptrace.h>
#include <linux/android/binder.h>
#include <bpf/bpf_helpers.h>
#include <bpf/bpf_tracing.h>
#include <bpf/bpf_core_read.h>

typedef __u8 u8;
typedef __u32 u32;
typedef __u64 u64;
typedef __s64 s64;

#define FROM_BTF __attribute__((preserve_access_index))

struct file_system_type {
	const char *name;
} FROM_BTF;

struct super_block {
	struct file_system_type *s_type;
} FROM_BTF;

struct inode {
	u32 i_rdev;
	struct super_block *i_sb;
} FROM_BTF;

struct file_operations {
	void *flush;
} FROM_BTF;

struct file {
	struct inode *f_inode;
	const struct file_operations *f_op;
} FROM_BTF;

struct ns_common {
	unsigned int inum;
} FROM_BTF;

struct pid_namespace {
	struct ns_common ns;
} FROM_BTF;

struct upid {
	int nr;
	struct pid_namespace *ns;
} FROM_BTF;

struct pid {
	unsigned int level;
	struct upid numbers[1];
} FROM_BTF;

struct fdtable {
	unsigned int max_fds;
	struct file **fd;
} FROM_BTF;

struct files_struct {
	struct fdtable *fdt;
} FROM_BTF;

typedef struct {
	int counter;
} atomic_t;

struct signal_struct {
	atomic_t live;
} FROM_BTF;

struct mm_struct {
	unsigned long arg_start, arg_end;
} FROM_BTF;

typedef struct {
	unsigned int val;
} kuid_t;

struct cred {
	kuid_t euid;
} FROM_BTF;

#ifdef __TARGET_ARCH_x86
struct pcpu_hot {
	int preempt_count;
} FROM_BTF;
#endif

struct thread_info {
#ifdef __TARGET_ARCH_x86
	u32 status;
#endif
#ifdef __TARGET_ARCH_arm64
	u64 preempt_count;
#endif
} FROM_BTF;

struct task_struct {
	struct thread_info thread_info;
	struct files_struct *files;
	struct mm_struct *mm;
	const struct cred *cred;
	struct signal_struct *signal;
	struct task_struct *group_leader;
	struct pid *thread_pid;
	u64 start_boottime;
	int pid, tgid;
	char comm[16];
} FROM_BTF;

struct seq_file;

struct bpf_iter_meta {
	struct seq_file *seq;
} FROM_BTF;

struct bpf_iter__task_file {
	struct bpf_iter_meta *meta;
	struct task_struct *task;
	u32 fd;
	struct file *file;
} FROM_BTF;

#define EFAULT 14
#define TS_COMPAT 2u				/* of thread_info.status */
#define WRITE_READ_OF_PROTOCOL_7 0xc0186201u	/* with fields of 32 bits */
#endif
