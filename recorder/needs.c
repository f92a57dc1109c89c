#include "needs.h"
#include "devices.h"
#include "drivers.h"
#include "lack.h"
#include "tracefs.h"
#include "tracepoints.h"
#include <errno.h>
#include <linux/capability.h>
#include <stdio.h>
#include <string.h>
#include <sys/statvfs.h>
#include <sys/syscall.h>
#include <sys/utsname.h>
#include <unistd.h>

#define LEAST_SPACE (1u << 20)		/* bytes */

const char need_driver_words[] = "the kernel has no Binder driver; if it is a module: modprobe binder_linux";

static void folder_of(const char *path, char *folder, size_t room)
{
	const char *slash = strrchr(path, '/');
	if (slash)
		snprintf(folder, room, "%.*s", slash == path ? 1 : (int)(slash - path), path);
	else
		snprintf(folder, room, ".");
}

void need_space(const char *out, u64 most)
{
	struct statvfs space;
	char folder[4100];
	folder_of(out, folder, sizeof folder);
	if (statvfs(folder, &space) || !space.f_blocks)	/* a folder that is not there is told when files are created */
		return;
	u64 bytes = (u64)space.f_bavail * space.f_frsize;
	if (bytes < LEAST_SPACE)
		lack("%s has %llu bytes free, and a recording takes %u at least: the disk is full", folder,
		     (unsigned long long)bytes, LEAST_SPACE);
	else if (most > bytes)
		complain("the files that are kept, with their side lists, can take %llu bytes, and %s has %llu free",
			 (unsigned long long)most, folder, (unsigned long long)bytes);
}

static int has_capability(const struct __user_cap_data_struct *data, u32 capability)
{
	return (data[capability / 32].effective >> capability % 32 & 1) != 0;
}

void need_capabilities(void)
{
	struct __user_cap_header_struct head = { .version = _LINUX_CAPABILITY_VERSION_3 };
	struct __user_cap_data_struct data[2] = { { 0 } };
	if (syscall(SYS_capget, &head, data))
		fail("the capabilities of this process could not be read");
	if (has_capability(data, CAP_SYS_ADMIN) || (has_capability(data, CAP_BPF) && has_capability(data, CAP_PERFMON)))
		return;
	lack("root is needed, or the capabilities CAP_BPF and CAP_PERFMON");
}

static struct utsname read_version(u32 *major, u32 *minor)
{
	struct utsname name;
	if (uname(&name) || sscanf(name.release, "%u.%u", major, minor) != 2)
		fail("the version of the kernel could not be read");
	return name;
}

int kernel_is_before(u32 major, u32 minor)
{
	u32 its_major, its_minor;
	read_version(&its_major, &its_minor);
	return its_major < major || (its_major == major && its_minor < minor);
}

int kernel_is_older(void)
{
#ifdef __aarch64__
	return kernel_is_before(5, 18);
#else
	return kernel_is_before(5, 17);
#endif
}

void need_kernel(void)
{
	u32 major, minor;
	if (kernel_is_before(5, 10))
		lack("the kernel is %s, and 5.10 or a later one is needed", read_version(&major, &minor).release);
	if (access("/sys/kernel/btf/vmlinux", R_OK))
		lack("/sys/kernel/btf/vmlinux is not there: a kernel with CONFIG_DEBUG_INFO_BTF is needed, and sysfs");
}

/* If securityfs is not mounted, a lockdown is not seen here; then loading the program fails instead. */
void need_no_lockdown(void)
{
	char line[128] = "";
	FILE *file = fopen("/sys/kernel/security/lockdown", "r");
	int is_read = file && fgets(line, sizeof line, file);
	if (file)
		fclose(file);
	if (is_read && strstr(line, "[confidentiality]"))
		lack("the kernel is locked down for confidentiality: it lets no program read its memory");
}

int need_driver(void)
{
	if (driver_is_recorded(DRIVER_IN_C) || driver_is_recorded(DRIVER_IN_RUST))
		return 1;
	lack("%s", need_driver_words);
	return 0;
}

int need_tracefs(void)
{
	char path[TRACEFS_PATH_BYTES];
	tracefs_path(path, "events");
	if (!access(path, R_OK | X_OK))
		return 1;
	lack("%s cannot be read: it takes root, or a mount for this user; if it is not there:"
	     " mount -t tracefs tracefs %s", path, tracefs_folder());
	return 0;
}

/* Of two drivers one is enough: then the calls of the other one are left out. */
static void need_driver_tracepoints(enum driver driver, enum driver other)
{
	char why[512];
	if (!driver_is_recorded(driver) ||
	    tracepoints_are_there(driver_system(driver), tracepoints_of_driver, why, sizeof why))
		return;
	if (!driver_is_recorded(other))
		lack("the Binder driver in %s is not recorded: %s%s", driver_language(driver), why,
		     driver == DRIVER_IN_RUST ? "; in later kernels it has all that is needed" : "");
	else
		complain("calls of the Binder driver in %s are not recorded, and those of the one in %s are: %s",
			 driver_language(driver), driver_language(other), why);
	driver_leave_out(driver);
}

void need_tracepoints(void)
{
	char why[512];
	need_driver_tracepoints(DRIVER_IN_RUST, DRIVER_IN_C);
	need_driver_tracepoints(DRIVER_IN_C, DRIVER_IN_RUST);
	if (!tracepoints_are_there("sched", tracepoints_of_scheduler, why, sizeof why))
		lack("%s: this kernel is not recorded", why);
}

/* Whether the kernel may take the processor from its own code; if that can't be read, it may. */
static int may_preempt(void)
{
	char line[512];
	int is_found = 0, is_read = 0;
	FILE *file = fopen("/proc/kallsyms", "r");
	while (file && !is_found && fgets(line, sizeof line, file)) {
		is_read = 1;
		is_found = strstr(line, " preempt_schedule\n") != NULL;
	}
	if (file)
		fclose(file);
	return is_found || !is_read;
}

void need_no_preemption(enum preemption preemption)
{
	if (preemption == PREEMPTION_IS_OFF || !may_preempt())
		return;
	if (preemption == PREEMPTION_UNKNOWN && kernel_is_before(7, 3))	/* up to 7.2 tracepoints or perf turn it off */
		return;
	if (preemption == PREEMPTION_NOT_SEEN)
		lack("the kernel does not run the recorder's programs at its tracepoints: it is not recorded");
	else
		lack("this kernel %s its processor from the recorder's programs, which would mix the bytes of calls:"
		     " it is not recorded", preemption == PREEMPTION_IS_ON ? "may take" : "does not tell whether it takes");
}

void need_process(u32 process)
{
	char path[32];
	snprintf(path, sizeof path, "/proc/%u", process);
	if (access(path, F_OK))
		lack("--pid %u: there is no such process", process);
}

u32 need_device(const char *name)
{
	u32 device = device_by_name(name);
	if (!device)
		lack("--device %s: there is no such Binder device", name);
	return device;
}
