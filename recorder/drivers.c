#include "drivers.h"
#include "tracefs.h"
#include <stdio.h>
#include <string.h>
#include <unistd.h>

static int is_left_out[DRIVERS];

static int is_there(enum driver driver)
{
	if (driver == DRIVER_IN_RUST)
		return !access("/sys/module/rust_binder", F_OK);
	return !access("/sys/module/binder_linux", F_OK) || !access("/sys/module/binder", F_OK);
}

int driver_is_recorded(enum driver driver)
{
	return !is_left_out[driver] && is_there(driver);
}

void driver_leave_out(enum driver driver)
{
	is_left_out[driver] = 1;
}

const char *driver_language(enum driver driver)
{
	return driver == DRIVER_IN_RUST ? "Rust" : "C";
}

const char *driver_system(enum driver driver)
{
	return driver == DRIVER_IN_RUST ? "rust_binder" : "binder";
}

/* A name in Rust is mangled: `_R`, the path with a hash of the crate, and last the length of the name and the name, as
 * in _RNvCs7z46NOck65X_11rust_binder16rust_binder_open. */
static int is_mangled(const char *symbol, const char *name)
{
	char end[64];
	size_t length = strlen(symbol);
	size_t end_length = (size_t)snprintf(end, sizeof end, "%zu%s", strlen(name), name);
	return !strncmp(symbol, "_R", 2) && length > end_length && !strcmp(symbol + length - end_length, end);
}

/* A compiler that optimizes a whole kernel, as for Android, may add `.llvm.` and a number to the name of a static
 * function. With CFI it may add `.cfi`; the name alone, or with `.cfi_jt`, is then a jump to the function. */
static int is_renamed(const char *symbol, const char *name)
{
	size_t length = strlen(name);
	if (strncmp(symbol, name, length))
		return 0;
	const char *added = symbol + length;
	if (!strncmp(added, ".llvm.", 6))
		return !added[6 + strspn(added + 6, "0123456789")];
	return !strcmp(added, ".cfi");
}

/* Finds the symbol that is the function of this name, as `is_it` tells. */
static int find_symbol(int (*is_it)(const char *symbol, const char *name), const char *wanted, char *name)
{
	char line[FUNCTION_BYTES + 128];
	int is_found = 0;
	FILE *file = fopen("/proc/kallsyms", "r");
	while (file && !is_found && fgets(line, sizeof line, file))
		is_found = sscanf(line, "%*s %*s %511s", name) == 1 && is_it(name, wanted);
	if (file)
		fclose(file);
	return is_found;
}

/* The kernel refuses to probe a function without a call of ftrace in it, and writes into its log that it does. rustc
 * puts no such calls into functions on x86-64. So it is not asked for them. */
static int can_be_probed(const char *name)
{
	char path[TRACEFS_PATH_BYTES], line[FUNCTION_BYTES + 128];
	int is_found = 0;
	tracefs_path(path, "available_filter_functions");
	FILE *file = fopen(path, "r");
	if (!file)		/* a kernel that calls ftrace nowhere refuses none */
		return 1;
	while (!is_found && fgets(line, sizeof line, file)) {
		line[strcspn(line, " \n")] = 0;
		is_found = !strcmp(line, name);
	}
	fclose(file);
	return is_found;
}

int driver_function(enum driver driver, const char *what, char *name)
{
	char wanted[32];
	if (driver == DRIVER_IN_RUST) {
		snprintf(wanted, sizeof wanted, "rust_binder_%s", what);
		return find_symbol(is_mangled, wanted, name) && can_be_probed(name);
	}
	snprintf(wanted, sizeof wanted, "binder_%s", what);
	if (!find_symbol(is_renamed, wanted, name))
		strcpy(name, wanted);
	return 1;
}
