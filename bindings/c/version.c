/* The version of the library: that of the header with which it was built. */
#include "../../include/relkvanu.h"

const char *relkvanu_version(void) {
    return RELKVANU_VERSION;
}
