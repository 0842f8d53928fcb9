/* pick.h: any entry of an array. */
#ifndef PICK_H
#define PICK_H

#include "random.h"

#define PICK(r, list) (list)[random_below(r, sizeof(list) / sizeof *(list))]

#endif
