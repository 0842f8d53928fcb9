#include "breakages.h"

#include <stdio.h>
#include <string.h>

#define END NULL

/* in a record of the reader's alone */
static const char *const byte_kinds[] = {"right-byte", END};

static const char *const record_kinds[] = {"right",      "line",      "line-0", "line-8", "d", "rounds", "degree", "seed_std-of-fault",
                                           "fault-list", "value-nan", END};

static const char *const right_record_kinds[] = {"line-of-right", "seed_std", "start_count",  "column_count",  "value_count",  "start",
                                                 "column",        "value",    "start-behind", "column-behind", "value-behind", END};

static const char *const verdict_kinds[] = {"number", END};

static const char *const right_verdict_kinds[] = {"place", END};

static const char *const head_kinds[] = {"right", "d", "rounds", "degree", END};

static const char *const refused_kinds[] = {
    "refusal", "refusal-none", "refusal-place", "refusal-length", "refusal-wrote", "refusal-wrote-last", END};

static const char *const taken_kinds[] = {"refused",   "place", "shorter", "longer",      "first-byte",
                                          "last-byte", "byte",  "behind",  "behind-last", END};

static const char *const room_kinds[] = {"18", END};

static const char *const list_kinds[] = {"list", END}, *const seed_kinds[] = {"seed", END},
                         *const taking_kinds[] = {"grammar", "answer", END};

static const char *const text_kinds[] = {"fault", "line", "refusal", "place", "rows", "row", "newline", "shorter", "longer", "behind", END};

static const char *const program_kinds[] = {"byte", "shorter", "longer", "status", "signal", "error", END};

static const char *const script_kinds[] = {"silent", "number", "lines", END}, *const short_room_kinds[] = {"length", "wrote", END};

static const char *const call_kinds[] = {"verdict", "passes", "isolated", "isolated-empty", "isolated-nan", END};

static const char *const signal_kinds[] = {"crash", "endless", END};

typedef struct {
  const char *part; /* before the kind, or "" */
  const char *const *kinds;
} part_kinds;

static const part_kinds of_files[] = {{"reading", byte_kinds},
                                      {"reading", record_kinds},
                                      {"reading", right_record_kinds},
                                      {"library", verdict_kinds},
                                      {"library", right_verdict_kinds},
                                      {"library", record_kinds},
                                      {"library", right_record_kinds},
                                      {"rewrite", refused_kinds},
                                      {"rewrite", taken_kinds},
                                      {"", call_kinds},
                                      {"room", short_room_kinds},
                                      {"text", text_kinds},
                                      {"reprint", taken_kinds},
                                      {"program", program_kinds},
                                      {"script", script_kinds},
                                      {"", signal_kinds},
                                      {END, END}};

static const part_kinds of_writers[] = {
    {"write", refused_kinds}, {"write", room_kinds},        {"write", taken_kinds}, {"write", list_kinds},   {"back", right_verdict_kinds},
    {"back", head_kinds},     {"back", right_record_kinds}, {"again", taken_kinds}, {"taken", taking_kinds}, {"print", refused_kinds},
    {"print", room_kinds},    {"print", taken_kinds},       {"print", seed_kinds},  {"", signal_kinds},      {END, END}};

static void print_kinds(const part_kinds *p) {
  for (size_t i = 0; p->kinds[i]; i++) printf("%s%s%s\n", p->part, *p->part ? "-" : "", p->kinds[i]);
}

int breakages_print(const char *group) {
  int is_files = !strcmp(group, "files"), is_writers = !strcmp(group, "writers");
  for (const part_kinds *p = is_files ? of_files : of_writers; p->part && (is_files || is_writers); p++) print_kinds(p);
  return is_files || is_writers;
}
