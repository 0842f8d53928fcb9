/* record.h: the Ritz record, lent memory 10 of request W1: against the Rust, against the state at each closing, and while a run goes on. */
#ifndef RECORD_H
#define RECORD_H

#include "calls.h"
#include "stream.h"

/* The one call's record, round by round, against the Rust's where that is promised; and that every place of every round was written. */
void record_compare(const graph *g, lists *l, uint64_t salt);

/* What closing the products wrote into its round's places: the bound that the old state has, then the values on the new state's diagonal in
 * document 01's Ritz order, which is read a second time here; and that the new state has its places in this order. */
void record_check_closing(const threshcinch_state *old, const threshcinch_state *new, const lists *now, const char *words);

/* A closing that writes to the record; its places are those from `record_place` on, `reading_record_width` of them. */
int record_is_written(const threshcinch_state *old);
size_t record_place(const threshcinch_state *old);

/* ---- while a run goes on: `due` is what the whole list must hold */

/* Takes a copy of the list as it is: as it was lent, or as it stands in other memory. */
void record_begin(list *due, const lists *now);

/* A round's products have closed: its places hold the end's numbers, which the one call has left, and no other place has changed. */
void record_closed(list *due, const lists *one, const threshcinch_state *old);

/* Compares after a call in the stage and round of the state. */
void record_check(list *due, const lists *now, const threshcinch_state *old);

/* ---- the self-test's faults in a held run */
void record_break_closing(const list *due, const threshcinch_state *old, const threshcinch_state *new, lists *now);
void record_break_run(const threshcinch_state *old, lists *now);

#endif
