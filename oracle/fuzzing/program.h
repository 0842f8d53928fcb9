/* program.h: a file through seedrun itself. */
#ifndef PROGRAM_H
#define PROGRAM_H

#include "checks.h"
#include "tally.h"

/* seconds that a program is waited for; SIGALRM comes then */
enum { LONGEST_WAIT = 600 };

/* the program as rt linked it, or the script over it, which says a refusal in words */
enum speaker { PROGRAM, SCRIPT };

/* Gives the program the file on its standard input. Its output must be the answer's text, its status 0, and nothing on standard error but
 * the script's line on a refusal. */
void check_program(const char *path, enum speaker speaker, const text *file, const answer *due, enum way way, random_source *r);

/* Ends the program that runs, if one does; for a signal handler. */
void program_stop(void);

#endif
