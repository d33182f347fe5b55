/* The version of the library, for programs that find it at run time. All else of the library is proved (crates/abt_c). */
#include <abt.h>

const char *abt_version(void)
{
    return ABT_VERSION;
}
