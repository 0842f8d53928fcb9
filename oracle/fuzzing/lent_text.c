#include "lent_text.h"

#include "guarded.h"
#include "tally.h"
#include "written.h"

/* ---- rooms */

size_t enough_room(random_source *r, size_t length) {
  if (once_in(r, 2)) return length;
  return length + 1 + (once_in(r, 2) ? random_below(r, 64) : random_below(r, LENT_ROOM - length));
}

size_t any_room(random_source *r, size_t length) {
  switch (random_below(r, 8)) {
    case 0:
    case 1:
      return enough_room(r, length);
    case 2:
      return 0;
    case 3:
    case 4:
      return random_below(r, length);
    default:
      return length - (length > 0);
  }
}

enum room_kind room_kind_of(size_t room, size_t length) {
  if (room >= length) return room == length ? EXACT : LONGER;
  if (room == 0) return EMPTY;
  return room + 1 == length ? ONE_SHORT : SHORTER;
}

/* ---- the comparison */

static void compare_bytes(const char *part, lent_text lent, const text *whole, size_t length) {
  size_t other = text_first_other(whole, lent.at, length);
  if (other < length) differ(part, "the text differs from byte %zu on", other);
  size_t written = lent_first_written(lent.at, length, lent.room);
  if (written < lent.room) differ(part, "byte %zu was written behind the %zu that are due", written, length);
}

static void compare_all(const char *part, const threshcinch_written *said, lent_text lent, threshcinch_verdict due, const text *whole) {
  size_t length = due.number ? 0 : whole->length;
  if (said->verdict.number != due.number || said->verdict.place != due.place)
    differ(part, "it answers %llu at %llu, not %llu at %llu; %zu bytes of room", (unsigned long long)said->verdict.number,
           (unsigned long long)said->verdict.place, (unsigned long long)due.number, (unsigned long long)due.place, lent.room);
  if (said->length != length) differ(part, "the length is %zu, not %zu; %zu bytes of room", said->length, length, lent.room);
  compare_bytes(part, lent, whole, length);
}

/* ---- the self-test */

static void break_refused(const char *part, threshcinch_written *said, lent_text lent) {
  if (breaks_in(part, "refusal")) said->verdict.number++;
  if (breaks_in(part, "refusal-none")) said->verdict.number = said->verdict.place = 0;
  if (breaks_in(part, "refusal-place")) said->verdict.place++;
  if (breaks_in(part, "refusal-length")) said->length = 1;
  if (lent.room && breaks_in(part, "refusal-wrote")) lent.at[0] ^= 1;
  if (lent.room > 1 && breaks_in(part, "refusal-wrote-last")) lent.at[lent.room - 1] ^= 1;
}

static void break_taken(const char *part, threshcinch_written *said, lent_text lent) {
  size_t length = said->length;
  if (breaks_in(part, "refused")) said->verdict.number = 18;
  if (breaks_in(part, "place")) said->verdict.place = 1;
  if (breaks_in(part, "shorter")) said->length--;
  if (breaks_in(part, "longer")) said->length++;
  if (breaks_in(part, "first-byte")) lent.at[0] ^= 1;
  if (breaks_in(part, "last-byte")) lent.at[length - 1] ^= 1;
  if (breaks_in(part, "byte")) lent.at[length / 2] ^= 1;
  if (lent.room > length && breaks_in(part, "behind")) lent.at[length] = '\n';
  if (lent.room > length && breaks_in(part, "behind-last")) lent.at[lent.room - 1] = 0;
}

void check_lent_text(const char *part, threshcinch_written said, lent_text lent, const due_writing *due) {
  threshcinch_verdict verdict = written_in_room(due->verdict, due->whole->length, lent.room);
  if (verdict.number)
    break_refused(part, &said, lent);
  else
    break_taken(part, &said, lent);
  if (verdict.number == 18 && breaks_in(part, "18")) said.verdict.number = 17;
  compare_all(part, &said, lent, verdict, due->whole);
}
