/* As much of Android's part of libselinux as servicemanager takes. */
#pragma once
#include <selinux/selinux.h>

struct selabel_handle {
	int none;
};
static struct selabel_handle the_handle;

static inline struct selabel_handle *selinux_android_service_context_handle(void)
{
	return &the_handle;
}

static inline struct selabel_handle *selinux_android_vendor_service_context_handle(void)
{
	return &the_handle;
}

static inline int selabel_lookup(struct selabel_handle *handle, char **context, const char *name, int type)
{
	(void)handle;
	(void)name;
	(void)type;
	*context = strdup("u:object_r:any:s0");
	return 0;
}

static inline int selinux_log_callback(int type, const char *format, ...)
{
	(void)type;
	(void)format;
	return 0;
}
