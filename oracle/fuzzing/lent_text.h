/* lent_text.h: what a writer answered and left in the text that it was lent, against what is due. */
#ifndef LENT_TEXT_H
#define LENT_TEXT_H

#include "random.h"
#include "text.h"
#include "threshcinch.h"

/* a text that is lent: as long as is needed, longer, one byte shorter, shorter, or empty */
enum room_kind { EXACT, LONGER, ONE_SHORT, SHORTER, EMPTY, ROOM_KINDS };

/* how many bytes to lend for a text of this length */
size_t any_room(random_source *r, size_t length);
size_t enough_room(random_source *r, size_t length);
enum room_kind room_kind_of(size_t room, size_t length);

/* what is due where there is room: a refusal, or the whole text */
typedef struct {
  threshcinch_verdict verdict;
  const text *whole;
} due_writing;

/* what was lent, full of the pattern, and is now */
typedef struct {
  uint8_t *at;
  size_t room;
} lent_text;

/* Verdict, length and every byte. `part` names the call in a difference, and in the faults of the self-test. */
void check_lent_text(const char *part, threshcinch_written said, lent_text lent, const due_writing *due);

#endif
