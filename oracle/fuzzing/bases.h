/* bases.h: the files that are damaged: stored ones, and ones made at the edges of what the grammar and the table of refusals allow. */
#ifndef BASES_H
#define BASES_H

#include "text.h"

/* document 01's sample */
extern const char sample[];

/* Takes the seven lines of each case of oracle/vectors/runs.txt. Succeeds if there is any. */
int bases_load_cases(const char *path);

/* Takes a run file whole. */
int bases_load_file(const char *path);

/* a file to begin with */
void bases_pick(text *t, random_source *r);

/* decimals and floats at edges, and neither; each text is one number's */
const char *any_right_decimal(random_source *r);
const char *any_wrong_decimal(random_source *r);
const char *any_right_float(random_source *r);
const char *any_wrong_float(random_source *r);

/* rounds at and beside the most that are taken, and far above it */
const char *any_rounds(random_source *r);

#endif
