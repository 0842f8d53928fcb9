/* answers.h: answers as the second writer gets them: refusals, seeds with their counts, and ones with faults. */
#ifndef ANSWERS_H
#define ANSWERS_H

#include "random.h"
#include "written.h"

/* The seed lies where a page behind it may not be touched. */
void answer_make(answer_parts *a, random_source *r);

/* whether the seed is as it was made */
int answer_is_as_made(const answer_parts *a);

#endif
