/* shapes.h: the files that are damaged: most of them right, of every shape that request W5 allows, and some at the edges of its limits. */
#ifndef SHAPES_H
#define SHAPES_H

#include "bytes.h"

/* a small file, each byte of which is changed in every way */
extern const char sample[];

/* how many entries the proved reader keeps at once where they stand in no rising order: at and behind this many more than one block is met
 */
enum { BLOCK = 32767 };

/* Makes a file, and answers its shape: a number below shape_count(). */
int shape_make(bytes *b, random_source *r);

/* A right file that SciPy reads as well, of up to so many rows. It wants comments right behind the banner, before blank lines. */
void shape_make_plain(bytes *b, random_source *r, uint64_t most_rows);

int shape_count(void);
const char *shape_name(int which);

/* a number at an edge, as a word */
const char *any_edge(random_source *r);

/* what no number of a file is */
const char *any_wrong_word(random_source *r);

#endif
