/* The library's version. library/build compiles this against the header and links it into the library, which so keeps the version of the
   header that it was built with. Data, and no function: every function of the library is proved. */
#include "threshcinch.h"

const char *const threshcinch_version = THRESHCINCH_VERSION;
