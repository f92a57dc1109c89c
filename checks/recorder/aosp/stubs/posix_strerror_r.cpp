// Of two functions that glibc has by this name, libbase wants the one of POSIX.
#include <string.h>
extern "C" int __xpg_strerror_r(int error, char* text, size_t length);
extern "C" int posix_strerror_r(int error, char* text, size_t length) { return __xpg_strerror_r(error, text, length); }
