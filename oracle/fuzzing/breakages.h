/* breakages.h: the faults of the self-test, by what has to be run for them. */
#ifndef BREAKAGES_H
#define BREAKAGES_H

/* Prints the kinds that files or writers reach, a line each. Succeeds if the group is one of these two words. */
int breakages_print(const char *group);

#endif
