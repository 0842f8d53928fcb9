/* threshcinch.h: the spectral seed of a neighbour graph, for C11 and C++11 or later on x86-64.
 *
 * Link target/library/libthreshcinch.a or libthreshcinch.so, which library/build writes and library/install puts in place; then
 * `pkg-config --cflags --libs threshcinch` says where. examples/c/seed.c is a whole program.
 *
 * Every function of the library is proved to meet its contract (crates/threshcinch; the definitions that it cites are document 01's, in
 * crates/definition and crates/machine). None asks for anything first, except what C itself leaves to the caller: a list's address and
 * length must be those of memory that is there, aligned for its elements, and a list that is written must overlap no other list of the call;
 * and the thread must have the stack that a call takes: about 56,000 bytes (closing 55,700, reading a run file 51,300, the one call 45,100, writing
 * a run file 34,000, a chunk 33,600, on rows in the worst order 34,800, opening 18,200, writing an answer 9,400; bindings/c/stack.c measures all but
 * the worst order). One call takes far more: reading a Matrix Market file, about 394,000 bytes whatever the file is. A host whose threads have small
 * stacks must know it.
 *
 * Call the short forms: threshcinch_embed, threshcinch_run_open, _run_chunk, _run_close, _run_accepted and _run_owed, threshcinch_file_write,
 * _file_read and threshcinch_answer_write, threshcinch_market_sizes and _market_read, and threshcinch_set_seed_std. They are a few lines around
 * the library's own functions, the long forms, and see to two things that the proofs take for granted: no list is NULL, and the processor's
 * arithmetic is IEEE 754's (THE ARITHMETIC, below).
 *
 * WHAT IS PROMISED
 * 1. Every call ends, on every graph, parameter, state and memory. Bad input is refused by a number and a place (below). A refused call
 *    changes no lent number; it answers the state that it got (a refused opening the empty state, a refused setter the old parameters,
 *    a refused one call zero counts).
 * 2. An accepted graph yields the seed and the Ritz record (THE RITZ RECORD, below) of document 01's definition, roots rounded as IEEE 754
 *    says: the same bits on every machine, and from the short forms also in a thread that rounds otherwise or flushes subnormal numbers to
 *    zero. The seed has bhtsne's bits (a NaN counts as any NaN) where no row names a column twice, no Ritz value is NaN and the last round's
 *    first D + 1 Ritz values fall strictly. On a graph with an empty row, or a row of minus zeros only, zeros of either sign match. bhtsne
 *    shows no Ritz record.
 * 3. A held run gives the same seed, counts and memory, the Ritz record in it, as the one call, whatever the order of its chunk and closing
 *    calls, refused calls among them, and wherever it was stored and gone on with. Between opening and end it accepts exactly
 *    (9 + rounds x (degree + 2 + 7 k) + 7 x refreshed) x (C + 1) calls, with k = D + 8 and C chunks of 4,096 rows.
 *
 * NUMBERS ALLOWED: D 1 to 7; rows 1 to 1,048,576; entries 0 to 67,108,864; rounds and degree 1 to 1,000; seed_std positive and finite.
 *
 * THE RITZ RECORD
 * The last of the lent lists, ritz_record, tells how the spectrum settled, round by round. With k = D + 8 it has k + 1 numbers for each round:
 * for round r, from 0, place r x (k + 1) holds the bound that the filter of that round used (0.75 in round 0; later the Ritz value at place
 * D + 1, counted from 0, of the round before, raised to 0.1 and lowered to 0.9995), and the k places behind it hold all k Ritz values of that
 * round, falling, NaN last. A round's places are written when its products stage (14) is closed, and by nothing else: those of rounds that
 * are not so far are as they were lent.
 *
 * RUN FILES AND ANSWERS
 * The text program seedrun reads run files (D, parameters and a graph, in seven lines) and prints answers (a refusal, or counts and a seed).
 * Three functions go between these texts and a host's numbers, with the bits of every number. A writer answers how many bytes it wrote, from the
 * text's first byte on; those behind them stay. A refused writer answers length 0, and all of the text stays. The one form of a text that the
 * grammar allows is written, so equal numbers are equal bytes.
 * - Writing a run file refuses, in this order: 17 where the rounds are over 400, or the starts over 65, or the columns or values over 1,024, at
 *   the line that would hold them (2, 5, 6, 7); 1 to 10 with their places, tested as opening does; 18 where the text has too little room.
 * - Reading refuses by 17 alone: at the first line that is wrong, missing, extra or over such a size, from 1, or at 0 for more than 32,768
 *   bytes; the rest of the record is zeros then. 1 to 10 are not tested: opening does it. Bits of any NaN are read as one NaN.
 * - Writing an answer takes a verdict. Where that is a refusal, its number and place are written whatever they are, and only room is tested (18).
 *   Where it is accepted, D is tested by 1, no rows by 2, more than 64 by 17 at 0, a seed shorter than rows x D by 11 at 9, then room by 18.
 *   Row i's numbers stand from place i x D on; those behind rows x D are not looked at. A NaN is written as 7ff8000000000000, whatever its bits.
 * A run file has at most 32,768 bytes and an answer at most 8,192: with that much room 18 is never met. Proved too (crates/files): reading what
 * was written gives the same D, parameters and graph; and writing what was read from a file that passes 1 to 10 gives the file's own bytes.
 *
 * MATRIX MARKET FILES
 * Graphs are also handed on as Matrix Market files, of the kind coordinate, pattern, symmetric. One function reads such a text into three lists
 * that a host lends; a small one reads to the size line only and answers how long lists suffice, so that a host can take memory first.
 * - Line 1 is the banner: %%MatrixMarket, exactly so and from the line's first byte on, and the words matrix, coordinate, pattern, symmetric, each
 *   letter in either case. Then comment lines, which begin with % and hold any byte; then the size line: rows, columns, entries; then one
 *   line for each entry: row and column, counted from 1. Blank lines, which have spaces and tabs at most, may stand anywhere after the first line.
 * - Words and numbers are separated by one or more spaces or tabs, which may stand behind the last one too, and before a line's first number. A
 *   number is decimal digits, leading zeros allowed, with no sign, and below 2^64.
 * - A line ends with a newline, or a carriage return and a newline, or the end of the text (an end right after a newline begins no line). Without that
 *   end it has at most 1,024 bytes. A carriage return elsewhere is a fault in every line, comments too.
 * - Rows and columns are equal in number, n; the size line has no more than n (n + 1) / 2 entries; there are exactly as many as it says; each one's
 *   row is at least its column and at most n, its column at least 1; and none repeats.
 * - The graph: each entry becomes value 1.0, off the diagonal it is placed in both rows, and a row's entries rise by column. Proved too
 *   (crates/mirrored): such a graph passes 2 to 7, has no column twice in a row, and is symmetric bit for bit.
 * - Reading refuses, in this order: 19 at the first line at fault, from 1 (of a repeated entry the later line; where entries or the size line are
 *   missing, the line that is missing; 1 for no text at all), whatever the lists are; 2 for no rows; 3 for more than 1,048,576 rows or 67,108,864
 *   entries as placed; 11 at the first list that is too short: 0 the starts (n + 1), 1 the columns, 2 the values (the entries as placed). A refused
 *   call answers zeros, and every lent number stays. An accepted one leaves the numbers behind the graph's as they were.
 * - The small call refuses by 19 for the lines up to the size line, then by 2, and by 3 for the rows or for more than 67,108,864 entries on that line.
 *   Reading goes on where it stops: what it accepts may be refused by 19 or 3, and what it refuses by 2 or 3 may have a line at fault further down, 19.
 * - A text whose entries stand in strictly rising order, by column and row or by row and column, as every tool writes them, is tested in one pass. In
 *   any other order repeats are looked for in bounded memory, on the stack: block by block of 32,767 entries, each in one pass over what
 *   stands behind it. This takes more than linear time, the entries' number times the number of blocks (m x m / 65,534 lines read for m entries; for a
 *   text made so that all entries share one hash, up to m x m / 2 comparisons; for one of 2^32 rows or more, which is refused in the end, made so that
 *   all share one key, as many lines); its memory is the stack that is named above.
 *
 * WHAT MAY BE CALLED FROM SEVERAL THREADS AT ONCE
 * - threshcinch_chunk on the same state, graph and memory, as long as no two calls that run at once have the same chunk number. It reads
 *   nothing that another chunk of its stage writes and writes only its own rows, entries, partial and mark: proved in crates/threads for
 *   the definition of the work, which the code is proved to do (own-once, writes_own and reads_own; for a whole call call_writes_own and
 *   call_reads_own). What is not proved is which loads the compiled code makes; examples/c/threads.c is for valgrind's helgrind and drd,
 *   which found nothing in the library of the first landing (its threads did not yet change their rounding then).
 * - NOT beside chunk calls of the same run: threshcinch_close, threshcinch_open, threshcinch_spectral_embedding, or anything else that
 *   touches the lent memory. Join the chunk calls first.
 * - Calls on different memory, at any time: nothing here has state of its own. A graph, or a text, that is only read may be shared.
 * - The functions that take no lists (parameters, sizes, progress), at any time.
 * Each thread has a control register of its own, and a short form sets and puts back that of its thread alone.
 *
 * THE ARITHMETIC
 * The proofs speak of IEEE 754 arithmetic that rounds to nearest, ties to even, and keeps subnormal numbers. A thread of x86-64 can have it
 * otherwise: its control register MXCSR has the rounding direction, and two bits that flush subnormal results (FTZ) and operands (DAZ) to
 * zero. A library that was linked with -ffast-math sets these two for a whole process when it is loaded. Then the bits of a seed change.
 * So each short form sets the register to its default (0x1F80: also no exception traps) for the time of the call, and then puts back the
 * whole register as it found it, with the flags of exceptions that were raised before: a call raises none. Long forms compute in whatever
 * arithmetic they find. Functions that have no short form (threshcinch_params_new, _rounds and _degree, _chunk_count, _lent_sizes) compute
 * with whole numbers alone: no register reaches them. Readers and writers of text round nothing, but the writers compare floating-point numbers,
 * and such a comparison may see a subnormal number as zero, raise a flag, or trap: hence their short forms.
 */
#ifndef THRESHCINCH_H
#define THRESHCINCH_H

#if !defined(__x86_64__)
#error "threshcinch: the library is compiled for x86-64; on Arm compile with x86_64-linux-gnu-gcc"
#endif

#include <stddef.h>
#include <stdint.h>
#include <stdlib.h>
#include <xmmintrin.h>

/* what the library itself has, and not this header; library/build looks for these lines */
#define THRESHCINCH_API extern

#ifdef __cplusplus
#define THRESHCINCH_ASSERT(what) static_assert(what, #what)
extern "C" {
#else
#define THRESHCINCH_ASSERT(what) _Static_assert(what, #what)
#endif

/* ---- the version: this header's, and the library's own, which is that of the header that it was built with. The two differ where a program
 * runs with another shared library than it was compiled for. The shared library's name (its soname) has the version's first number, and while
 * that is 0 the second one too: one of them rises whenever a program that was linked before would go wrong, so that such a program does not
 * find the new one. */

#define THRESHCINCH_VERSION "0.3.5"

THRESHCINCH_API const char *const threshcinch_version;

/* ---- refusals: document 01's numbers. 0 is no refusal. The place is 0 unless said. */
enum threshcinch_refusal {
  THRESHCINCH_ACCEPTED = 0,
  THRESHCINCH_DIMS = 1,          /* D not 1 to 7 */
  THRESHCINCH_NO_ROWS = 2,       /* fewer than two row starts */
  THRESHCINCH_LIMITS = 3,        /* more rows or columns than allowed */
  THRESHCINCH_LENGTHS = 4,       /* columns and values differ in length */
  THRESHCINCH_STARTS = 5,        /* first start not 0, a start below the one before, or the last not the column count; place: its index */
  THRESHCINCH_COLUMN = 6,        /* a column not below the number of rows; place: first such entry */
  THRESHCINCH_VALUE = 7,         /* a value NaN or infinite; place: first such entry */
  THRESHCINCH_ROUNDS = 8,        /* rounds not 1 to 1,000 */
  THRESHCINCH_DEGREE = 9,        /* degree not 1 to 1,000 */
  THRESHCINCH_SEED_STD = 10,     /* seed_std not positive and finite */
  THRESHCINCH_MEMORY = 11,       /* lent memory too short; place: the first short list, 0 to 10; of a graph that is read 0 to 2 */
  THRESHCINCH_NO_CHUNK = 12,     /* chunk number not below the number of chunks; place: the number offered */
  THRESHCINCH_CHUNK_DONE = 13,   /* that chunk is already done in this stage; place: its number */
  THRESHCINCH_CHUNKS_LEFT = 14,  /* closing with a chunk not done; place: the lowest such */
  THRESHCINCH_NO_RUN = 15,       /* no run is open: the empty state, or a finished one */
  THRESHCINCH_DAMAGED = 16,      /* a state field out of its range, or a list or mark that does not fit the state; never met on what a
                                    run from its opening has reached */
  THRESHCINCH_TEXT = 17,         /* no run file, or more than one holds, or an answer of over 64 rows; place: the line, from 1, or 0 */
  THRESHCINCH_ROOM = 18,         /* the text has too little room for what is to be written */
  THRESHCINCH_MATRIX_MARKET = 19 /* no Matrix Market file (coordinate, pattern, symmetric); place: the first line at fault, from 1 */
};

/* ---- records: they cross by value, and hold numbers and arrays only, so that a host may store them as they are */

typedef struct {
  uint64_t number;
  uint64_t place;
} threshcinch_verdict;

typedef struct {
  uint64_t rounds;
  uint64_t degree;
  double seed_std;
} threshcinch_params;

/* what a setter answers: the new parameters, or a refusal (8, 9, 10) with the old ones */
typedef struct {
  threshcinch_verdict verdict;
  threshcinch_params params;
} threshcinch_set;

/* the least lengths of the lent lists 0 to 10, in elements; zeros with a refusal (1, 2, 3, 8) */
typedef struct {
  threshcinch_verdict verdict;
  size_t lengths[11];
} threshcinch_sizes;

/* what was asked at the opening */
typedef struct {
  size_t dims;
  size_t rows;
  size_t entries;
  size_t rounds;
  size_t degree;
  double seed_std;
} threshcinch_asked;

/* where a run is; docs/STATE.md has each field with its range */
typedef struct {
  size_t stage;
  size_t round;
  size_t pass;
  size_t column;
  size_t attempt;
  size_t current;
  size_t previous;
  double bound;
  double alpha;
  double before;
  double norm;
} threshcinch_progress;

/* operator passes closed; columns refreshed and zeroed, over all rounds; isolated rows: those whose degree's root is not above 1e-12, or is NaN,
 * so that they took the inverse weight 1e-12; rows with no entries are among them, and rows whose degree is below zero. In a held run isolated is 0
 * until the degrees (stage 1) are closed: that closing sets it, and no other call changes it. */
typedef struct {
  size_t passes;
  size_t refreshed;
  size_t zeroed;
  size_t isolated;
} threshcinch_counts;

typedef struct {
  threshcinch_asked asked;
  threshcinch_progress progress;
  threshcinch_counts counts;
  double totals[225];
  double matrix[225];
  double vectors[225];
  size_t order[15];
} threshcinch_state;

/* what opening, a chunk and closing answer */
typedef struct {
  threshcinch_verdict verdict;
  threshcinch_state state;
} threshcinch_answer;

/* what the one call answers */
typedef struct {
  threshcinch_verdict verdict;
  threshcinch_counts counts;
} threshcinch_embedded;

/* how much a run file holds at most, and how many bytes hold every run file and every answer */
enum {
  THRESHCINCH_FILE_ROUNDS = 400,
  THRESHCINCH_FILE_STARTS = 65,
  THRESHCINCH_FILE_ENTRIES = 1024,
  THRESHCINCH_FILE_BYTES = 32768,
  THRESHCINCH_ANSWER_BYTES = 8192
};

/* what a writer of text answers: how many bytes it wrote, 0 with a refusal */
typedef struct {
  threshcinch_verdict verdict;
  size_t length;
} threshcinch_written;

/* a run file as it was read, zeros behind the numbers of each list; with a refusal (17) all but the verdict is zeros */
typedef struct {
  threshcinch_verdict verdict;
  uint64_t d;
  threshcinch_params params;
  size_t start_count;
  size_t column_count;
  size_t value_count;
  uint64_t starts[THRESHCINCH_FILE_STARTS];
  uint32_t columns[THRESHCINCH_FILE_ENTRIES];
  double values[THRESHCINCH_FILE_ENTRIES];
} threshcinch_run_file;

/* what reading a Matrix Market file answers: how many rows the graph has, and how many entries as placed; zeros with a refusal (19, 2, 3, 11) */
typedef struct {
  threshcinch_verdict verdict;
  size_t rows;
  size_t entries;
} threshcinch_matrix_market;

/* room that suffices for one: n + 1 starts; columns and values, of each twice the entries of the size line, but no more than 67,108,864; zeros with a
 * refusal (19, 2, 3) */
typedef struct {
  threshcinch_verdict verdict;
  size_t starts;
  size_t entries;
} threshcinch_matrix_market_room;

THRESHCINCH_ASSERT(sizeof(size_t) == 8 && sizeof(double) == 8);
THRESHCINCH_ASSERT(sizeof(threshcinch_verdict) == 16 && offsetof(threshcinch_verdict, place) == 8);
THRESHCINCH_ASSERT(sizeof(threshcinch_params) == 24 && offsetof(threshcinch_params, degree) == 8 && offsetof(threshcinch_params, seed_std) == 16);
THRESHCINCH_ASSERT(sizeof(threshcinch_set) == 40 && offsetof(threshcinch_set, params) == 16);
THRESHCINCH_ASSERT(sizeof(threshcinch_sizes) == 104 && offsetof(threshcinch_sizes, lengths) == 16);
THRESHCINCH_ASSERT(sizeof(threshcinch_asked) == 48 && offsetof(threshcinch_asked, seed_std) == 40);
THRESHCINCH_ASSERT(sizeof(threshcinch_progress) == 88 && offsetof(threshcinch_progress, bound) == 56 && offsetof(threshcinch_progress, norm) == 80);
THRESHCINCH_ASSERT(sizeof(threshcinch_counts) == 32 && offsetof(threshcinch_counts, isolated) == 24);
THRESHCINCH_ASSERT(sizeof(threshcinch_state) == 5688);
THRESHCINCH_ASSERT(offsetof(threshcinch_state, progress) == 48 && offsetof(threshcinch_state, counts) == 136 && offsetof(threshcinch_state, totals) == 168);
THRESHCINCH_ASSERT(offsetof(threshcinch_state, matrix) == 1968 && offsetof(threshcinch_state, vectors) == 3768 && offsetof(threshcinch_state, order) == 5568);
THRESHCINCH_ASSERT(sizeof(threshcinch_answer) == 5704 && offsetof(threshcinch_answer, state) == 16);
THRESHCINCH_ASSERT(sizeof(threshcinch_embedded) == 48 && offsetof(threshcinch_embedded, counts) == 16);
THRESHCINCH_ASSERT(sizeof(threshcinch_written) == 24 && offsetof(threshcinch_written, length) == 16);
THRESHCINCH_ASSERT(sizeof(threshcinch_run_file) == 12880);
THRESHCINCH_ASSERT(offsetof(threshcinch_run_file, d) == 16 && offsetof(threshcinch_run_file, params) == 24);
THRESHCINCH_ASSERT(offsetof(threshcinch_run_file, start_count) == 48 && offsetof(threshcinch_run_file, starts) == 72);
THRESHCINCH_ASSERT(offsetof(threshcinch_run_file, columns) == 592 && offsetof(threshcinch_run_file, values) == 4688);
THRESHCINCH_ASSERT(sizeof(threshcinch_matrix_market) == 32);
THRESHCINCH_ASSERT(offsetof(threshcinch_matrix_market, rows) == 16 && offsetof(threshcinch_matrix_market, entries) == 24);
THRESHCINCH_ASSERT(sizeof(threshcinch_matrix_market_room) == 32);
THRESHCINCH_ASSERT(offsetof(threshcinch_matrix_market_room, starts) == 16 && offsetof(threshcinch_matrix_market_room, entries) == 24);

/* ---- parameters: 5 rounds of degree 20, seed_std 1e-4, until set. A setter tests the number that it sets and no other; opening and the one
 * call test all three, so a host may also write the fields itself. */

THRESHCINCH_API threshcinch_params threshcinch_params_new(void);
THRESHCINCH_API threshcinch_set threshcinch_params_rounds(threshcinch_params params, uint64_t rounds);
THRESHCINCH_API threshcinch_set threshcinch_params_degree(threshcinch_params params, uint64_t degree);

/* A long form, as it tests a floating-point number: needs MXCSR at its default. Short: threshcinch_set_seed_std. */
THRESHCINCH_API threshcinch_set threshcinch_params_seed_std(threshcinch_params params, double seed_std);

/* ---- sizes */

/* C: rows / 4,096 rounded up */
THRESHCINCH_API size_t threshcinch_chunk_count(size_t rows);

/* how long each lent list must at least be; longer is allowed, and the rest stays untouched. Refusals 1, 2 and 3 for d, rows and entries, then
 * 8 for rounds that are not 1 to 1,000, each at place 0. */
THRESHCINCH_API threshcinch_sizes threshcinch_lent_sizes(uint64_t d, uint64_t rounds, size_t rows, size_t entries);

/* ---- progress, for people. Long forms: they need MXCSR at its default, as they test the state's numbers. Short: threshcinch_run_accepted and
 * threshcinch_run_owed. Both look at the state alone, which no chunk call changes, and not at the marks: within a stage neither moves. */

/* calls accepted in the stages that are closed, none of the stage at hand; 0 for a state that is damaged or empty */
THRESHCINCH_API size_t threshcinch_calls_accepted(threshcinch_state state);

/* calls that the run owes from the stage at hand on, if no further column is refreshed: that stage counts whole, C chunks and the closing,
 * however many of its chunks are done; 0 for a state that is damaged or empty */
THRESHCINCH_API size_t threshcinch_calls_owed(threshcinch_state state);

/* ---- the calls as the library has them, the long forms: each list as address and length in elements, in document 01's order. Most callers
 * want the short forms further below. A long form needs MXCSR at its default, 0x1F80 (threshcinch_arithmetic_begin sets it), or its bits are
 * others. It takes no NULL, whatever the length: an empty list has length 0 and any other address. */

THRESHCINCH_API threshcinch_embedded threshcinch_spectral_embedding(
    uint64_t d, threshcinch_params params,
    const uint64_t *starts, size_t starts_length,
    const uint32_t *columns, size_t columns_length,
    const double *values, size_t values_length,
    double *inverse, size_t inverse_length,
    double *v0, size_t v0_length,
    uint32_t *edge_columns, size_t edge_columns_length,
    double *edge_weights, size_t edge_weights_length,
    double *block0, size_t block0_length,
    double *block1, size_t block1_length,
    double *block2, size_t block2_length,
    double *partials, size_t partials_length,
    uint8_t *marks, size_t marks_length,
    double *output, size_t output_length,
    double *ritz_record, size_t ritz_record_length);

/* writes only the first C marks */
THRESHCINCH_API threshcinch_answer threshcinch_open(
    uint64_t d, threshcinch_params params,
    const uint64_t *starts, size_t starts_length,
    const uint32_t *columns, size_t columns_length,
    const double *values, size_t values_length,
    const double *inverse, size_t inverse_length,
    const double *v0, size_t v0_length,
    const uint32_t *edge_columns, size_t edge_columns_length,
    const double *edge_weights, size_t edge_weights_length,
    const double *block0, size_t block0_length,
    const double *block1, size_t block1_length,
    const double *block2, size_t block2_length,
    const double *partials, size_t partials_length,
    uint8_t *marks, size_t marks_length,
    const double *output, size_t output_length,
    const double *ritz_record, size_t ritz_record_length);

/* does the work of one chunk in the state's stage and marks it done; the state stays as it is. Of ritz_record the length alone is looked at. */
THRESHCINCH_API threshcinch_answer threshcinch_chunk(
    threshcinch_state state, size_t number,
    const uint64_t *starts, size_t starts_length,
    const uint32_t *columns, size_t columns_length,
    const double *values, size_t values_length,
    double *inverse, size_t inverse_length,
    double *v0, size_t v0_length,
    uint32_t *edge_columns, size_t edge_columns_length,
    double *edge_weights, size_t edge_weights_length,
    double *block0, size_t block0_length,
    double *block1, size_t block1_length,
    double *block2, size_t block2_length,
    double *partials, size_t partials_length,
    uint8_t *marks, size_t marks_length,
    double *output, size_t output_length,
    const double *ritz_record, size_t ritz_record_length);

/* closes the stage once each of its chunks is done, and answers the next state; writes only the first C marks and, where the stage is that of the
 * products (14), the k + 1 places of its round in ritz_record */
THRESHCINCH_API threshcinch_answer threshcinch_close(
    threshcinch_state state,
    const uint64_t *starts, size_t starts_length,
    const uint32_t *columns, size_t columns_length,
    const double *values, size_t values_length,
    const double *inverse, size_t inverse_length,
    const double *v0, size_t v0_length,
    const uint32_t *edge_columns, size_t edge_columns_length,
    const double *edge_weights, size_t edge_weights_length,
    const double *block0, size_t block0_length,
    const double *block1, size_t block1_length,
    const double *block2, size_t block2_length,
    const double *partials, size_t partials_length,
    uint8_t *marks, size_t marks_length,
    const double *output, size_t output_length,
    double *ritz_record, size_t ritz_record_length);

/* the run file of a graph; refusals 17, 1 to 10, 18 in this order */
THRESHCINCH_API threshcinch_written threshcinch_write_run(
    uint64_t d, threshcinch_params params,
    const uint64_t *starts, size_t starts_length,
    const uint32_t *columns, size_t columns_length,
    const double *values, size_t values_length,
    uint8_t *text, size_t text_length);

/* what a run file says; refusal 17 */
THRESHCINCH_API threshcinch_run_file threshcinch_read_run(const uint8_t *text, size_t text_length);

/* what seedrun prints for this verdict, these counts and this seed of so many rows; refusals 1, 2, 17, 11, 18 in this order, of a verdict that is
 * a refusal 18 alone */
THRESHCINCH_API threshcinch_written threshcinch_write_answer(
    threshcinch_verdict verdict, uint64_t d, size_t rows, threshcinch_counts counts,
    const double *seed, size_t seed_length,
    uint8_t *text, size_t text_length);

/* the graph of a Matrix Market file, into these lists; refusals 19, 2, 3, 11 in this order */
THRESHCINCH_API threshcinch_matrix_market threshcinch_read_matrix_market(
    const uint8_t *text, size_t text_length,
    uint64_t *starts, size_t starts_length,
    uint32_t *columns, size_t columns_length,
    double *values, size_t values_length);

/* how long lists suffice for it; refusals 19, 2, 3 in this order. It reads to the size line only. */
THRESHCINCH_API threshcinch_matrix_market_room threshcinch_matrix_market_sizes(const uint8_t *text, size_t text_length);

/* ---- the short forms */

/* row i's entries are those from starts[i] up to starts[i + 1]; symmetry is not tested */
typedef struct {
  const uint64_t *starts;
  size_t starts_length;
  const uint32_t *columns;
  size_t columns_length;
  const double *values;
  size_t values_length;
} threshcinch_graph;

/* lent memory in document 01's order, and the Ritz record as list 10; after the run the output holds the seed, row after row, D numbers each */
typedef struct {
  double *inverse;
  size_t inverse_length;
  double *v0;
  size_t v0_length;
  uint32_t *edge_columns;
  size_t edge_columns_length;
  double *edge_weights;
  size_t edge_weights_length;
  double *block0;
  size_t block0_length;
  double *block1;
  size_t block1_length;
  double *block2;
  size_t block2_length;
  double *partials;
  size_t partials_length;
  uint8_t *marks;
  size_t marks_length;
  double *output;
  size_t output_length;
  double *ritz_record;
  size_t ritz_record_length;
} threshcinch_memory;

/* n + 1 starts, and columns and values of the same length */
static inline threshcinch_graph threshcinch_graph_of(size_t rows, const uint64_t *starts, size_t entries, const uint32_t *columns, const double *values) {
  threshcinch_graph graph;
  graph.starts = starts;
  graph.starts_length = rows + 1;
  graph.columns = columns;
  graph.columns_length = entries;
  graph.values = values;
  graph.values_length = entries;
  return graph;
}

/* ---- the arithmetic of a call: MXCSR at its default, and back. For callers of long forms too:
 *
 *   const unsigned found = threshcinch_arithmetic_begin();
 *   ... long forms, and no arithmetic of the caller's own, which a compiler may move to either side ...
 *   threshcinch_arithmetic_end(found);
 *
 * The call stays between the two. To a compiler all three are steps with effects that it cannot see through, and it keeps such steps in order:
 * reading and setting the register are volatile, and the library's functions are machine code of another compiler in an archive, which no
 * link-time optimization looks into. The short forms have no arithmetic between the two but the call's. */
enum { THRESHCINCH_MXCSR = 0x1F80 };

/* Answers the register as it was. */
static inline unsigned threshcinch_arithmetic_begin(void) {
  const unsigned found = _mm_getcsr();
  _mm_setcsr(THRESHCINCH_MXCSR);
  return found;
}

/* Puts it back whole. An exception's flag that comes back together with its trap raises nothing. */
static inline void threshcinch_arithmetic_end(unsigned found) { _mm_setcsr(found); }

/* ---- numbers */

/* Sets seed_std, or answers refusal 10 with the old parameters. */
static inline threshcinch_set threshcinch_set_seed_std(threshcinch_params params, double seed_std) {
  const unsigned found = threshcinch_arithmetic_begin();
  const threshcinch_set set = threshcinch_params_seed_std(params, seed_std);
  threshcinch_arithmetic_end(found);
  return set;
}

/* Calls accepted in the stages that are closed. */
static inline size_t threshcinch_run_accepted(const threshcinch_state *state) {
  const unsigned found = threshcinch_arithmetic_begin();
  const size_t calls = threshcinch_calls_accepted(*state);
  threshcinch_arithmetic_end(found);
  return calls;
}

/* Calls owed from the stage at hand on. */
static inline size_t threshcinch_run_owed(const threshcinch_state *state) {
  const unsigned found = threshcinch_arithmetic_begin();
  const size_t calls = threshcinch_calls_owed(*state);
  threshcinch_arithmetic_end(found);
  return calls;
}

/* ---- the calls */

/* The library takes no NULL. Here a NULL list is an empty one, whatever its length says: it is taken where an empty list is, and is else refused
 * by the number of a list that is too short (2 for starts, 4 for columns or values alone, 5 where entries are missing, 11 for lent memory, 16 in
 * a held run). */
static inline void *threshcinch_address(const void *address, size_t length) {
  static uint64_t nothing;
  return length == 0 || !address ? (void *)&nothing : (void *)(uintptr_t)address;
}
#define THRESHCINCH_LIST(type, of, list) (type *)threshcinch_address((of)->list, (of)->list##_length), (of)->list ? (of)->list##_length : 0
#define THRESHCINCH_GRAPH(graph) \
  THRESHCINCH_LIST(uint64_t, graph, starts), THRESHCINCH_LIST(uint32_t, graph, columns), THRESHCINCH_LIST(double, graph, values)
#define THRESHCINCH_LISTS(graph, memory) \
  THRESHCINCH_GRAPH(graph), THRESHCINCH_LIST(double, memory, inverse), THRESHCINCH_LIST(double, memory, v0), THRESHCINCH_LIST(uint32_t, memory, edge_columns), \
  THRESHCINCH_LIST(double, memory, edge_weights), THRESHCINCH_LIST(double, memory, block0), THRESHCINCH_LIST(double, memory, block1), \
  THRESHCINCH_LIST(double, memory, block2), THRESHCINCH_LIST(double, memory, partials), THRESHCINCH_LIST(uint8_t, memory, marks), \
  THRESHCINCH_LIST(double, memory, output), THRESHCINCH_LIST(double, memory, ritz_record)

/* The one call: the seed is in memory->output and the Ritz record in memory->ritz_record if the verdict's number is 0. */
static inline threshcinch_embedded threshcinch_embed(uint64_t d, threshcinch_params params, const threshcinch_graph *graph, const threshcinch_memory *memory) {
  const unsigned found = threshcinch_arithmetic_begin();
  const threshcinch_embedded embedded = threshcinch_spectral_embedding(d, params, THRESHCINCH_LISTS(graph, memory));
  threshcinch_arithmetic_end(found);
  return embedded;
}

/* A held run: open once; then for each stage every chunk once, in any order, and close; until the answer of a call is 15. */
static inline threshcinch_answer threshcinch_run_open(uint64_t d, threshcinch_params params, const threshcinch_graph *graph, const threshcinch_memory *memory) {
  const unsigned found = threshcinch_arithmetic_begin();
  const threshcinch_answer answer = threshcinch_open(d, params, THRESHCINCH_LISTS(graph, memory));
  threshcinch_arithmetic_end(found);
  return answer;
}

static inline threshcinch_answer threshcinch_run_chunk(const threshcinch_state *state, size_t number, const threshcinch_graph *graph,
                                                       const threshcinch_memory *memory) {
  const unsigned found = threshcinch_arithmetic_begin();
  const threshcinch_answer answer = threshcinch_chunk(*state, number, THRESHCINCH_LISTS(graph, memory));
  threshcinch_arithmetic_end(found);
  return answer;
}

static inline threshcinch_answer threshcinch_run_close(const threshcinch_state *state, const threshcinch_graph *graph, const threshcinch_memory *memory) {
  const unsigned found = threshcinch_arithmetic_begin();
  const threshcinch_answer answer = threshcinch_close(*state, THRESHCINCH_LISTS(graph, memory));
  threshcinch_arithmetic_end(found);
  return answer;
}

/* ---- run files and answers. Text that is NULL is empty, whatever its length says: no room, and no run file. */

#define THRESHCINCH_TEXT_OF(text, length) (uint8_t *)threshcinch_address(text, length), (text) ? (length) : 0

/* Writes the run file of a graph into text with that much room; THRESHCINCH_FILE_BYTES always do. */
static inline threshcinch_written threshcinch_file_write(uint64_t d, threshcinch_params params, const threshcinch_graph *graph, void *text, size_t room) {
  const unsigned found = threshcinch_arithmetic_begin();
  const threshcinch_written written = threshcinch_write_run(d, params, THRESHCINCH_GRAPH(graph), THRESHCINCH_TEXT_OF(text, room));
  threshcinch_arithmetic_end(found);
  return written;
}

/* Reads a run file into a record, all of which is written, and answers its verdict. */
static inline threshcinch_verdict threshcinch_file_read(const void *text, size_t length, threshcinch_run_file *file) {
  const unsigned found = threshcinch_arithmetic_begin();
  *file = threshcinch_read_run(THRESHCINCH_TEXT_OF(text, length));
  threshcinch_arithmetic_end(found);
  return file->verdict;
}

/* The graph of a run file that was read, with the record's own lists: for as long as the record is there. */
static inline threshcinch_graph threshcinch_file_graph(const threshcinch_run_file *file) {
  threshcinch_graph graph;
  graph.starts = file->starts;
  graph.starts_length = file->start_count;
  graph.columns = file->columns;
  graph.columns_length = file->column_count;
  graph.values = file->values;
  graph.values_length = file->value_count;
  return graph;
}

/* Writes what seedrun prints: what the one call answered (a held run has the same in the verdict and the state's counts), and the seed of so many
 * rows. THRESHCINCH_ANSWER_BYTES always do. */
static inline threshcinch_written threshcinch_answer_write(threshcinch_embedded answer, uint64_t d, size_t rows, const double *seed, size_t seed_length,
                                                           void *text, size_t room) {
  const unsigned found = threshcinch_arithmetic_begin();
  const threshcinch_written written =
      threshcinch_write_answer(answer.verdict, d, rows, answer.counts, (const double *)threshcinch_address(seed, seed_length), seed ? seed_length : 0,
                               THRESHCINCH_TEXT_OF(text, room));
  threshcinch_arithmetic_end(found);
  return written;
}

/* ---- Matrix Market files. Text that is NULL is empty, and so is a NULL list: no such file, and no room. All of it together:
 *
 *   const threshcinch_matrix_market_room room = threshcinch_market_sizes(text, length);
 *   threshcinch_graph_lists lists;
 *   if (!threshcinch_graph_lists_new(&lists, room)) ... there is not so much memory
 *   const threshcinch_matrix_market market = threshcinch_market_read(text, length, &lists);
 *   if (market.verdict.number) ... refused, at market.verdict.place
 *   const threshcinch_graph graph = threshcinch_market_graph(market, &lists);
 *   ...
 *   threshcinch_graph_lists_free(&lists);
 *
 * The first answer's verdict need not be looked at: where it is a refusal its room is none, and reading refuses too. */

/* the lists of a graph that is read: those of threshcinch_graph, to be written */
typedef struct {
  uint64_t *starts;
  size_t starts_length;
  uint32_t *columns;
  size_t columns_length;
  double *values;
  size_t values_length;
} threshcinch_graph_lists;

/* Answers how long lists suffice for a Matrix Market file, from its lines up to the size line. */
static inline threshcinch_matrix_market_room threshcinch_market_sizes(const void *text, size_t length) {
  const unsigned found = threshcinch_arithmetic_begin();
  const threshcinch_matrix_market_room room = threshcinch_matrix_market_sizes(THRESHCINCH_TEXT_OF(text, length));
  threshcinch_arithmetic_end(found);
  return room;
}

/* Reads a Matrix Market file into lists, and answers how much of them the graph takes. */
static inline threshcinch_matrix_market threshcinch_market_read(const void *text, size_t length, const threshcinch_graph_lists *lists) {
  const unsigned found = threshcinch_arithmetic_begin();
  const threshcinch_matrix_market market = threshcinch_read_matrix_market(THRESHCINCH_TEXT_OF(text, length), THRESHCINCH_GRAPH(lists));
  threshcinch_arithmetic_end(found);
  return market;
}

/* The graph that was read, with the lists' own numbers: for as long as the lists are there. Of a refused reading it is no graph (2). */
static inline threshcinch_graph threshcinch_market_graph(threshcinch_matrix_market market, const threshcinch_graph_lists *lists) {
  return threshcinch_graph_of(market.rows, lists->starts, market.entries, lists->columns, lists->values);
}

/* Gives back what threshcinch_graph_lists_new took. */
static inline void threshcinch_graph_lists_free(threshcinch_graph_lists *lists) {
  free(lists->starts);
  lists->starts = NULL;
  lists->starts_length = 0;
  free(lists->columns);
  lists->columns = NULL;
  lists->columns_length = 0;
  free(lists->values);
  lists->values = NULL;
  lists->values_length = 0;
}

/* Takes the memory that a graph needs, as zeros. Answers 1, or 0 where there is not so much, and then holds nothing. */
static inline int threshcinch_graph_lists_new(threshcinch_graph_lists *lists, threshcinch_matrix_market_room room) {
  int whole = 1;
  lists->starts_length = room.starts;
  lists->starts = (uint64_t *)calloc(room.starts + 1, sizeof *lists->starts);
  whole = whole && lists->starts;
  lists->columns_length = room.entries;
  lists->columns = (uint32_t *)calloc(room.entries + 1, sizeof *lists->columns);
  whole = whole && lists->columns;
  lists->values_length = room.entries;
  lists->values = (double *)calloc(room.entries + 1, sizeof *lists->values);
  whole = whole && lists->values;
  if (!whole) threshcinch_graph_lists_free(lists);
  return whole;
}

/* ---- around a run */

/* a run stands before one of its stages */
static inline int threshcinch_is_open(const threshcinch_state *state) {
  return 1 <= state->progress.stage && state->progress.stage <= 19;
}

/* The k + 1 numbers of a round in the Ritz record of D dimensions: the bound that its filter used, then its Ritz values. They are the run's once
 * that round's products are closed. The round is below the rounds that the memory was made for. */
static inline const double *threshcinch_ritz_round(const threshcinch_memory *memory, uint64_t d, size_t round) {
  return memory->ritz_record + round * (d + 9);
}

/* Gives back what threshcinch_memory_new took. */
static inline void threshcinch_memory_free(threshcinch_memory *memory) {
  free(memory->inverse);
  memory->inverse = NULL;
  memory->inverse_length = 0;
  free(memory->v0);
  memory->v0 = NULL;
  memory->v0_length = 0;
  free(memory->edge_columns);
  memory->edge_columns = NULL;
  memory->edge_columns_length = 0;
  free(memory->edge_weights);
  memory->edge_weights = NULL;
  memory->edge_weights_length = 0;
  free(memory->block0);
  memory->block0 = NULL;
  memory->block0_length = 0;
  free(memory->block1);
  memory->block1 = NULL;
  memory->block1_length = 0;
  free(memory->block2);
  memory->block2 = NULL;
  memory->block2_length = 0;
  free(memory->partials);
  memory->partials = NULL;
  memory->partials_length = 0;
  free(memory->marks);
  memory->marks = NULL;
  memory->marks_length = 0;
  free(memory->output);
  memory->output = NULL;
  memory->output_length = 0;
  free(memory->ritz_record);
  memory->ritz_record = NULL;
  memory->ritz_record_length = 0;
}

/* Takes the memory that a run needs, as zeros. Answers 1, or 0 where there is not so much, and then holds nothing. */
static inline int threshcinch_memory_new(threshcinch_memory *memory, threshcinch_sizes sizes) {
  int whole = 1;
  memory->inverse_length = sizes.lengths[0];
  memory->inverse = (double *)calloc(sizes.lengths[0] + 1, sizeof *memory->inverse);
  whole = whole && memory->inverse;
  memory->v0_length = sizes.lengths[1];
  memory->v0 = (double *)calloc(sizes.lengths[1] + 1, sizeof *memory->v0);
  whole = whole && memory->v0;
  memory->edge_columns_length = sizes.lengths[2];
  memory->edge_columns = (uint32_t *)calloc(sizes.lengths[2] + 1, sizeof *memory->edge_columns);
  whole = whole && memory->edge_columns;
  memory->edge_weights_length = sizes.lengths[3];
  memory->edge_weights = (double *)calloc(sizes.lengths[3] + 1, sizeof *memory->edge_weights);
  whole = whole && memory->edge_weights;
  memory->block0_length = sizes.lengths[4];
  memory->block0 = (double *)calloc(sizes.lengths[4] + 1, sizeof *memory->block0);
  whole = whole && memory->block0;
  memory->block1_length = sizes.lengths[5];
  memory->block1 = (double *)calloc(sizes.lengths[5] + 1, sizeof *memory->block1);
  whole = whole && memory->block1;
  memory->block2_length = sizes.lengths[6];
  memory->block2 = (double *)calloc(sizes.lengths[6] + 1, sizeof *memory->block2);
  whole = whole && memory->block2;
  memory->partials_length = sizes.lengths[7];
  memory->partials = (double *)calloc(sizes.lengths[7] + 1, sizeof *memory->partials);
  whole = whole && memory->partials;
  memory->marks_length = sizes.lengths[8];
  memory->marks = (uint8_t *)calloc(sizes.lengths[8] + 1, sizeof *memory->marks);
  whole = whole && memory->marks;
  memory->output_length = sizes.lengths[9];
  memory->output = (double *)calloc(sizes.lengths[9] + 1, sizeof *memory->output);
  whole = whole && memory->output;
  memory->ritz_record_length = sizes.lengths[10];
  memory->ritz_record = (double *)calloc(sizes.lengths[10] + 1, sizeof *memory->ritz_record);
  whole = whole && memory->ritz_record;
  if (!whole) threshcinch_memory_free(memory);
  return whole;
}

/* A refusal in words, for people. */
static inline const char *threshcinch_words(uint64_t number) {
  switch (number) {
    case 0: return "accepted";
    case 1: return "dimensions are not 1 to 7";
    case 2: return "fewer than two row starts";
    case 3: return "more rows than 1,048,576 or more entries than 67,108,864";
    case 4: return "columns and values differ in length";
    case 5: return "the row starts do not begin at 0, fall, or do not end at the number of columns";
    case 6: return "a column is not below the number of rows";
    case 7: return "a value is NaN or infinite";
    case 8: return "rounds are not 1 to 1,000";
    case 9: return "degree is not 1 to 1,000";
    case 10: return "seed_std is not positive and finite";
    case 11: return "lent memory is too short";
    case 12: return "there is no such chunk";
    case 13: return "that chunk is already done in this stage";
    case 14: return "a chunk of this stage is not done yet";
    case 15: return "no run is open";
    case 16: return "the state, or a list for it, is damaged";
    case 17: return "the text is not a run file, or more than one holds";
    case 18: return "the text has too little room";
    case 19: return "the text is not a Matrix Market file of the kind coordinate pattern symmetric";
    default: return "no refusal has this number";
  }
}

#ifdef __cplusplus
}
#endif

#endif
