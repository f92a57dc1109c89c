/* As much of libselinux as servicemanager takes. Everything is allowed. */
#pragma once
#include <stdbool.h>
#include <stdint.h>
#include <stdlib.h>
#include <string.h>
#include <sys/types.h>

typedef uint16_t security_class_t;

union selinux_callback {
	int (*func_log)(int type, const char *format, ...);
	int (*func_audit)(void *data, security_class_t class_, char *message, size_t size);
};
enum { SELINUX_CB_LOG, SELINUX_CB_AUDIT };

static inline void selinux_set_callback(int type, union selinux_callback callback)
{
	(void)type;
	(void)callback;
}

static inline int selinux_check_access(const char *from, const char *to, const char *class_, const char *permission,
				       void *data)
{
	(void)from;
	(void)to;
	(void)class_;
	(void)permission;
	(void)data;
	return 0;
}

static inline int getcon(char **context)
{
	*context = strdup("u:r:servicemanager:s0");
	return 0;
}

static inline int getpidcon(pid_t pid, char **context)
{
	(void)pid;
	*context = strdup("u:r:any:s0");
	return 0;
}

static inline void freecon(char *context)
{
	free(context);
}

static inline int selinux_status_open(int fallback)
{
	(void)fallback;
	return 0;
}

static inline int selinux_status_updated(void)
{
	return 0;
}
