/* opens FILES: what it costs any file of the system to be looked at when it is opened and when it is released, as the
 * recorder does where the functions of the driver can't be probed. It opens and closes so many files, three times bare
 * and three times with the two programs of the recorder, and writes a line as those of calls for each. */
#include "common.h"
#include "mark.h"
#include "messages.h"
#include <bpf/libbpf.h>
#include <fcntl.h>
#include <stdio.h>
#include <stdlib.h>
#include <unistd.h>
#include "record.skel.h"

enum { ROUNDS = 3 };

static void give_up(const char *what)
{
	perror(what);
	exit(1);
}

static struct record *load(void)
{
	struct record *program = record__open();
	struct bpf_program *each;
	if (!program)
		give_up("open the programs");
	bpf_object__for_each_program(each, program->obj)
		bpf_program__set_autoload(each, each == program->progs.at_any_open ||
						each == program->progs.at_any_release);
	bpf_map__set_max_entries(program->maps.scratches, (unsigned)libbpf_num_possible_cpus());
	if (record__load(program))
		give_up("load the programs");
	return program;
}

static void attach(struct record *program)
{
	if (!bpf_program__attach_kprobe(program->progs.at_any_open, false, "security_file_open") ||
	    !bpf_program__attach_kprobe(program->progs.at_any_release, false, "locks_remove_file"))
		give_up("attach the programs");
}

static void open_files(int count)
{
	for (int i = 0; i < count; i++) {
		int file = open("/proc/version", O_RDONLY);
		if (file < 0)
			give_up("/proc/version");
		close(file);
	}
}

static void count_rounds(const char *how, int files)
{
	open_files(files);		/* what the first ones do is not counted */
	for (int i = 0; i < ROUNDS; i++) {
		u64 began = now();
		mark();
		open_files(files);
		mark();
		printf("cost: opens %s 0 %d %llu\n", how, files, (unsigned long long)(now() - began));
	}
}

int main(int count, char **words)
{
	int files = count > 1 ? atoi(words[1]) : 0;
	if (files < 1)
		return 64;
	make_mark();
	struct record *program = load();
	count_rounds("bare", files);
	attach(program);
	count_rounds("recorded", files);
	record__destroy(program);
	return 0;
}
