/* verified PROGRAMS [BTF]: has the kernel of this machine verify the recorder's programs, of the object file PROGRAMS,
 * those of the driver's tracepoints also as raw ones. Where fields are in the kernel's structures it takes from the file
 * BTF, by default from this kernel. The status is 0 if all passed, 1 if not, and 3 if nobody may ask this kernel here.
 * See compiled.sh. */
#include <bpf/bpf.h>
#include <bpf/btf.h>
#include <bpf/libbpf.h>
#include <errno.h>
#include <stdint.h>
#include <stdio.h>
#include <stdlib.h>
#include <string.h>
#include <unistd.h>

enum { PASSED, FAILED, USAGE, NOT_ALLOWED };

#define LAST_WORDS 1500	/* bytes: the verifier says last what it refuses */

static char *words;		/* of libbpf, and of the verifier */
static size_t words_length;
static FILE *to_words;

static int keep_words(enum libbpf_print_level level, const char *format, va_list arguments)
{
	return level == LIBBPF_DEBUG ? 0 : vfprintf(to_words, format, arguments);
}

/* The constant `is_raw` of the programs. */
static unsigned *is_raw_of(struct bpf_object *object)
{
	size_t bytes;
	const struct btf *btf = bpf_object__btf(object);
	const struct btf_type *section = btf__type_by_id(btf, btf__find_by_name_kind(btf, ".rodata", BTF_KIND_DATASEC));
	struct bpf_map *map = bpf_object__find_map_by_name(object, ".rodata");
	const char *constants = map ? bpf_map__initial_value(map, &bytes) : NULL;
	for (int i = 0; section && constants && i < btf_vlen(section); i++) {
		const struct btf_var_secinfo *place = btf_var_secinfos(section) + i;
		const struct btf_type *variable = btf__type_by_id(btf, place->type);
		if (!strcmp(btf__name_by_offset(btf, variable->name_off), "is_raw"))
			return (unsigned *)(uintptr_t)(constants + place->offset);
	}
	fprintf(stderr, "the programs have no is_raw\n");
	exit(USAGE);
}

static void make_raw(struct bpf_object *object)
{
	struct bpf_program *each;
	*is_raw_of(object) = 1;
	bpf_object__for_each_program(each, object)
		if (!strcmp(bpf_program__section_name(each), "tp"))
			bpf_program__set_type(each, BPF_PROG_TYPE_RAW_TRACEPOINT);
}

/* Returns 0, or an error. */
static int load(const char *programs, const char *btf, int looks_at_preemption, int is_raw)
{
	LIBBPF_OPTS(bpf_object_open_opts, options, .btf_custom_path = btf);
	rewind(to_words);
	struct bpf_object *object = bpf_object__open_file(programs, &options);
	if (!object)
		return -errno;
	struct bpf_program *look = bpf_object__find_program_by_name(object, "look_at_preemption");
	if (look && !looks_at_preemption)
		bpf_program__set_autoload(look, false);
	if (is_raw)
		make_raw(object);
	int error = bpf_object__load(object);
	bpf_object__close(object);
	return error;
}

/* Whether this process may load any program at all. */
static int is_allowed(void)
{
	struct bpf_insn nothing[] = { { .code = BPF_ALU64 | BPF_MOV | BPF_K }, { .code = BPF_JMP | BPF_EXIT } };
	int descriptor = bpf_prog_load(BPF_PROG_TYPE_TRACEPOINT, "nothing", "GPL", nothing, 2, NULL);
	if (descriptor >= 0)
		close(descriptor);
	return descriptor >= 0;
}

int main(int count, char **arguments)
{
	const char *btf = count > 2 ? arguments[2] : NULL;
	if (count < 2)
		return USAGE;
	to_words = open_memstream(&words, &words_length);
	if (!to_words)
		return USAGE;
	libbpf_set_print(keep_words);
	if (!is_allowed() || access("/sys/kernel/btf/vmlinux", R_OK))
		return NOT_ALLOWED;
	if (!load(arguments[1], btf, 1, 0) && !load(arguments[1], btf, 1, 1))
		return PASSED;
	if (load(arguments[1], btf, 0, 0) || load(arguments[1], btf, 0, 1)) {
		fflush(to_words);
		printf("%s", words + (words_length > LAST_WORDS ? words_length - LAST_WORDS : 0));
		return FAILED;
	}
	/* As on a kernel whose kallsyms has no variables: the recorder then loads the others, too (kernel.c). */
	printf("look_at_preemption was not tried: kallsyms has no variables here\n");
	return PASSED;
}
