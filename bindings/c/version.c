/* version: the library was built with a header of this version.
 * Status: 0, or 1 where the two differ. */
#include "check.h"

int main(void) {
  if (strcmp(threshcinch_version, THRESHCINCH_VERSION)) fail("the header is of %s, the library of %s", THRESHCINCH_VERSION, threshcinch_version);
  printf("version: header and library are of %s\n", threshcinch_version);
  return 0;
}
