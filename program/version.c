/* The version of the library that is linked, which may be another than that of the header. */
#include <sejjekoru.h>

const char *sejjekoru_version(void)
{
    return SEJJEKORU_VERSION;
}
