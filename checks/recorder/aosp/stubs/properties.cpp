// Debian's libcutils has no properties; each has its default here.
#include <string.h>

extern "C" int property_get(const char*, char* value, const char* otherwise) {
    strcpy(value, otherwise ? otherwise : "");
    return static_cast<int>(strlen(value));
}
