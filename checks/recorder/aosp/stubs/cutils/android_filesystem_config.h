/* The link that Debian has in this place leads nowhere. */
#pragma once
#include <private/android_filesystem_config.h>
