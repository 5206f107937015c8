/* The piece book from C: link with libpiecebook.a. What is asked of the caller:
   - each pointer has as many elements as its length says, where that is 0 it may be null, and one without a length, a state or a workspace, leads to a whole one;
   - what a call may write to, the workspace included, overlaps nothing else that it is given; what it only reads may overlap;
   - the thread has 1 MiB of stack for the call;
   - a workspace serves any number of calls, but one at a time: calls that run at once have one each.
   Nothing is asked of the bytes: what is unfit in them is refused. */
#ifndef PIECEBOOK_H
#define PIECEBOOK_H

#include <stddef.h>
#include <stdint.h>

#ifdef __cplusplus
extern "C" {
#endif

/* What the calls work in: six matrices, 3 MiB, which are best static or on the heap. What it holds at entry does not matter, and what it holds at exit is free. */
#define PIECEBOOK_MATRIX 65536

typedef struct {
    uint64_t e[PIECEBOOK_MATRIX];
    uint64_t d[PIECEBOOK_MATRIX];
    uint64_t t[PIECEBOOK_MATRIX];
    uint64_t u[PIECEBOOK_MATRIX];
    uint64_t p[PIECEBOOK_MATRIX];
    uint64_t q[PIECEBOOK_MATRIX];
} piecebook_workspace;

/* The library itself has each call under a name that ends in _with, which takes the matrices one by one, last, each of PIECEBOOK_MATRIX numbers. The functions here hand
   over a workspace's; callers from other languages may do that themselves. */

/* The lengths below which an index part is refused by number 1. Beyond them nothing is written. */
#define PIECEBOOK_PARENTHESES 2560
#define PIECEBOOK_MARKS 1280
#define PIECEBOOK_SHADOWS 8192
#define PIECEBOOK_PLACES 2048

/* Byte 1 of a record is its origin, byte 1 of a claim picks the facts that it is answered from: all, or those of cutting sheets only. */
enum { PIECEBOOK_CUTTING_SHEET = 0, PIECEBOOK_SCANNER = 1 };
enum { PIECEBOOK_ALL_FACTS = 0, PIECEBOOK_SHEETS_ONLY = 1 };

/* Byte 0 of a record: a fact of a and b, or with the last kind that piece a is void, which has b zero and a not zero. A claim has one of the first four. In PART a lies
   wholly in its container b, which has any number: pieces that lie in each other through a circle of such records, every piece lying in 0, are the same ice. */
enum { PIECEBOOK_PART = 1, PIECEBOOK_APART = 2, PIECEBOOK_MEETS = 3, PIECEBOOK_NOTPART = 4, PIECEBOOK_VOID = 6 };

/* The answer bytes. */
enum { PIECEBOOK_FOLLOWS = 1, PIECEBOOK_DENIED = 2, PIECEBOOK_OPEN = 3 };

/* number is 0 for an accepted book, or the number of the refusal, 1, 3 to 7, 9 to 14 or 19, whose record or claim is place; the counts are 0 for a refusal. Pieces
   that are the same ice have one node, and nodes counts these and the shadows. A book of no bytes is piece 0 alone: accepted, with counts 1, 1 and 0. */
typedef struct {
    size_t number;
    size_t place;
    size_t pieces;
    size_t nodes;
    size_t shadows;
} piecebook_result;

piecebook_result piecebook_answer_with(const uint8_t *book, size_t book_length, const uint8_t *claims, size_t claims_length, uint8_t *parentheses,
                                       size_t parentheses_length, uint8_t *marks, size_t marks_length, uint16_t *shadows, size_t shadows_length,
                                       uint16_t *places, size_t places_length, uint8_t *answers, size_t answers_length, uint64_t *e, uint64_t *d,
                                       uint64_t *t, uint64_t *u, uint64_t *p, uint64_t *q);

/* Answers the claims, one byte each at the front of answers, and writes the index; what is unused of the four parts, up to the lengths above, is
   zero. Pieces that are the same ice have the same place. A refusal writes nothing, but that 14 zeroes the four parts up to these lengths. Later answer bytes stay as
   they are. */
static inline piecebook_result piecebook_answer(piecebook_workspace *workspace, const uint8_t *book, size_t book_length, const uint8_t *claims,
                                                size_t claims_length, uint8_t *parentheses, size_t parentheses_length, uint8_t *marks,
                                                size_t marks_length, uint16_t *shadows, size_t shadows_length, uint16_t *places, size_t places_length,
                                                uint8_t *answers, size_t answers_length)
{
    return piecebook_answer_with(book, book_length, claims, claims_length, parentheses, parentheses_length, marks, marks_length, shadows,
                                 shadows_length, places, places_length, answers, answers_length, workspace->e, workspace->d, workspace->t,
                                 workspace->u, workspace->p, workspace->q);
}

piecebook_result piecebook_index_with(const uint8_t *book, size_t book_length, uint8_t *parentheses, size_t parentheses_length, uint8_t *marks,
                                      size_t marks_length, uint16_t *shadows, size_t shadows_length, uint16_t *places, size_t places_length,
                                      uint64_t *e, uint64_t *d, uint64_t *t, uint64_t *u, uint64_t *p, uint64_t *q);

/* Writes the index alone: as above without claims and answers, so that 10 to 13 do not occur. */
static inline piecebook_result piecebook_index(piecebook_workspace *workspace, const uint8_t *book, size_t book_length, uint8_t *parentheses,
                                               size_t parentheses_length, uint8_t *marks, size_t marks_length, uint16_t *shadows,
                                               size_t shadows_length, uint16_t *places, size_t places_length)
{
    return piecebook_index_with(book, book_length, parentheses, parentheses_length, marks, marks_length, shadows, shadows_length, places,
                                places_length, workspace->e, workspace->d, workspace->t, workspace->u, workspace->p, workspace->q);
}

/* The grids of a book of at most 64 pieces, one for each kind of claim: bit b of row a is set where the claim about pieces a and b follows from all
   facts; bits of pieces beyond the book are zero. number and place are those of piecebook_index, but that the buffers are the call's own, or 16 and 0
   for an accepted book of more than 64 pieces. A refusal gives four zero grids. */
typedef struct {
    size_t number;
    size_t place;
    uint64_t part[64];
    uint64_t apart[64];
    uint64_t meets[64];
    uint64_t notpart[64];
} piecebook_grids;

piecebook_grids piecebook_grid_with(const uint8_t *book, size_t book_length, uint64_t *e, uint64_t *d, uint64_t *t);

static inline piecebook_grids piecebook_grid(piecebook_workspace *workspace, const uint8_t *book, size_t book_length)
{
    return piecebook_grid_with(book, book_length, workspace->e, workspace->d, workspace->t);
}

/* A working book: records are added and withdrawn one at a time, and claims are answered, each as a fresh call on the records then standing would
   have it. The caller keeps these counts and an area of at least PIECEBOOK_AREA bytes, which holds the standing records and zeros behind them. */
#define PIECEBOOK_AREA 49152

typedef struct {
    size_t records;
    size_t pieces;
} piecebook_working;

/* number and place are the fresh call's, or 1 for a short area, 4 for more than 8,192 stated records, 3 for an addition and 10 for a claim of other
   than 6 bytes, 18 for the withdrawal of a record that does not stand. answer is 0 but for an answered claim. */
typedef struct {
    size_t number;
    size_t place;
    size_t answer;
} piecebook_working_result;

piecebook_working_result piecebook_start_with(piecebook_working *state, uint8_t *area, size_t area_length, uint64_t *e, uint64_t *d, uint64_t *t);

/* Begins with no records. A refusal of any of these calls leaves counts and area as they were; later bytes of the area are never written. */
static inline piecebook_working_result piecebook_start(piecebook_workspace *workspace, piecebook_working *state, uint8_t *area, size_t area_length)
{
    return piecebook_start_with(state, area, area_length, workspace->e, workspace->d, workspace->t);
}

piecebook_working_result piecebook_add_with(piecebook_working *state, uint8_t *area, size_t area_length, const uint8_t *record, size_t record_length,
                                            uint64_t *e, uint64_t *d, uint64_t *t);

/* Adds a record behind the standing ones. */
static inline piecebook_working_result piecebook_add(piecebook_workspace *workspace, piecebook_working *state, uint8_t *area, size_t area_length,
                                                     const uint8_t *record, size_t record_length)
{
    return piecebook_add_with(state, area, area_length, record, record_length, workspace->e, workspace->d, workspace->t);
}

piecebook_working_result piecebook_withdraw_with(piecebook_working *state, uint8_t *area, size_t area_length, size_t record_number, uint64_t *e,
                                                 uint64_t *d, uint64_t *t);

/* Withdraws the record of that number, from 0; later ones move down by one. */
static inline piecebook_working_result piecebook_withdraw(piecebook_workspace *workspace, piecebook_working *state, uint8_t *area, size_t area_length,
                                                          size_t record_number)
{
    return piecebook_withdraw_with(state, area, area_length, record_number, workspace->e, workspace->d, workspace->t);
}

piecebook_working_result piecebook_ask_with(piecebook_working *state, const uint8_t *area, size_t area_length, const uint8_t *claim,
                                            size_t claim_length, uint64_t *e, uint64_t *d, uint64_t *t, uint64_t *u, uint64_t *p, uint64_t *q);

/* Answers one claim. It writes nothing. */
static inline piecebook_working_result piecebook_ask(piecebook_workspace *workspace, piecebook_working *state, const uint8_t *area,
                                                     size_t area_length, const uint8_t *claim, size_t claim_length)
{
    return piecebook_ask_with(state, area, area_length, claim, claim_length, workspace->e, workspace->d, workspace->t, workspace->u, workspace->p,
                              workspace->q);
}

/* number is 0 where a new book was written, whose bytes are length; or the number of the refusal, 1, 3 to 9 or 14, whose record is place. 8 is for a PART whose
   container's number is not below the part's: the former edition alone refuses that. */
typedef struct {
    size_t number;
    size_t place;
    size_t length;
} piecebook_converted;

piecebook_converted piecebook_convert_with(const uint8_t *book, size_t book_length, uint8_t *out, size_t out_length, uint64_t *e, uint64_t *d,
                                           uint64_t *t);

/* Takes a book of the former edition, which has TRAY records (kind 5), and writes it without them to the front of out, the other records in their
   order. Where these do not name the largest piece, PART of that piece in 0 comes last. An out shorter than the book is 1. A refusal writes nothing;
   bytes behind the new book stay as they are. The new book is accepted by the other calls and gives every claim the answer that it had. */
static inline piecebook_converted piecebook_convert(piecebook_workspace *workspace, const uint8_t *book, size_t book_length, uint8_t *out,
                                                    size_t out_length)
{
    return piecebook_convert_with(book, book_length, out, out_length, workspace->e, workspace->d, workspace->t);
}

/* The lengths below which the list of a catalog, or one of its areas, is refused by number 17. */
#define PIECEBOOK_LIST 2048
#define PIECEBOOK_PAIRS 16384

/* number is 0 for an accepted book, or the number of the refusal, 1, 3 to 7, 9, 12 to 14, 17 or 19, whose record is place; the counts are 0 for a refusal.
   listed counts pieces; meets, apart and notpart count pairs. */
typedef struct {
    size_t number;
    size_t place;
    size_t pieces;
    size_t nodes;
    size_t shadows;
    size_t listed;
    size_t meets;
    size_t apart;
    size_t notpart;
} piecebook_catalog_result;

piecebook_catalog_result piecebook_catalog_with(const uint8_t *book, size_t book_length, size_t kind, size_t piece, uint8_t *parentheses,
                                                size_t parentheses_length, uint8_t *marks, size_t marks_length, uint16_t *shadows,
                                                size_t shadows_length, uint16_t *places, size_t places_length, uint16_t *list, size_t list_length,
                                                uint16_t *meets, size_t meets_length, uint16_t *apart, size_t apart_length, uint16_t *notpart,
                                                size_t notpart_length, uint64_t *e, uint64_t *d, uint64_t *t);

/* Lists all pieces that certainly are PART of a piece (kind 1), APART from it (2) or MEET it (3), each once, in rising number; later numbers of the list
   stay as they are. Writes the index, and into each area the stored facts of its kind as pairs of places, row then column, each once, in rising
   order, the lower place first in MEETS and APART; the rest of its first PIECEBOOK_PAIRS numbers is zero, and later ones stay as they are. Any other
   kind is 12, a piece that the book does not have 13. A refusal writes nothing, but that 14 zeroes the index. */
static inline piecebook_catalog_result piecebook_catalog(piecebook_workspace *workspace, const uint8_t *book, size_t book_length, size_t kind,
                                                         size_t piece, uint8_t *parentheses, size_t parentheses_length, uint8_t *marks,
                                                         size_t marks_length, uint16_t *shadows, size_t shadows_length, uint16_t *places,
                                                         size_t places_length, uint16_t *list, size_t list_length, uint16_t *meets,
                                                         size_t meets_length, uint16_t *apart, size_t apart_length, uint16_t *notpart,
                                                         size_t notpart_length)
{
    return piecebook_catalog_with(book, book_length, kind, piece, parentheses, parentheses_length, marks, marks_length, shadows, shadows_length,
                                  places, places_length, list, list_length, meets, meets_length, apart, apart_length, notpart, notpart_length,
                                  workspace->e, workspace->d, workspace->t);
}

/* 1 where one of the first count pairs of an area lies in these rows and these columns, ends included, else 0; an empty range has none. unordered is 1
   for MEETS and APART, whose pairs count in either order, and 0 for NOTPART. Of an area or a count that a catalog did not leave so the answer is free. */
size_t piecebook_fact_between(const uint16_t *area, size_t area_length, size_t count, size_t unordered,
                              size_t row_from, size_t row_to, size_t column_from, size_t column_to);

/* A range of places, ends included; empty where from is above to. */
typedef struct {
    size_t from;
    size_t to;
} piecebook_range;

/* The places of a piece's node and of all that hangs below it in the tree: rows or columns for the question above. Empty where the parts are shorter than
   an index or have no such node. */
piecebook_range piecebook_subtree(const uint8_t *parentheses, size_t parentheses_length, const uint16_t *places, size_t places_length, size_t piece);

/* The up to 31 entries before a part of the measurement log, oldest first, and how many they are; count 0 at first. */
typedef struct {
    uint16_t pieces[31];
    size_t count;
} piecebook_window;

/* number is 0 for an accepted part, or the number of the refusal: 1 for an out below two bytes a whole entry, then the book's own, then 20 for a part
   of odd length or above 32,768 entries, 21 with place 0 for a window of more than 31 pieces or with one beyond the book's, 21 with the entry's
   number as place for such an entry. window is the one to hand to the next part, zero behind its count; for a refusal it is the one that came. */
typedef struct {
    size_t number;
    size_t place;
    piecebook_window window;
} piecebook_replicates_result;

piecebook_replicates_result piecebook_replicates_with(const uint8_t *book, size_t book_length, piecebook_window window, const uint8_t *log,
                                                      size_t log_length, uint8_t *out, size_t out_length, uint64_t *e, uint64_t *d, uint64_t *t,
                                                      uint64_t *u);

/* Writes two bytes for each entry of a part of the log, a run of 16-bit piece numbers, low byte first: how many of the up to 31 entries before it are
   certainly APART from it, then 1 if every two of these and it are, else 0. A log sent in parts, none refused, with one book and the window handed
   from call to call, gives the bytes of the whole log. A refusal writes nothing; bytes behind the last entry's stay as they are. */
static inline piecebook_replicates_result piecebook_replicates(piecebook_workspace *workspace, const uint8_t *book, size_t book_length,
                                                               piecebook_window window, const uint8_t *log, size_t log_length, uint8_t *out,
                                                               size_t out_length)
{
    return piecebook_replicates_with(book, book_length, window, log, log_length, out, out_length, workspace->e, workspace->d, workspace->t,
                                     workspace->u);
}

/* number is 0 for two books that are compared, or the number of the refusal: 1 for an out below three bytes a claim, then the first book's own and 14,
   then the second's, then the claims'. book says whose it is, 1 or 2, or 0 for out and claims; place is as ever. together is 1 where the records of
   both, a shared one taken once, can be laid in ice together, else 0; 0 for a refusal. */
typedef struct {
    size_t number;
    size_t place;
    size_t book;
    size_t together;
} piecebook_comparison;

piecebook_comparison piecebook_compare_with(const uint8_t *first, size_t first_length, const uint8_t *second, size_t second_length,
                                            const uint8_t *claims, size_t claims_length, uint8_t *out, size_t out_length, uint64_t *e, uint64_t *d,
                                            uint64_t *t, uint64_t *u, uint64_t *p, uint64_t *q);

/* Compares two books of one core under the same numbers; each counts as having the pieces of the larger. Writes three bytes for each claim: both
   answers, then 1 where they are the same, 2 where one of them is OPEN, 3 where they are opposed. A refusal writes nothing; bytes behind the last
   claim's stay as they are. */
static inline piecebook_comparison piecebook_compare(piecebook_workspace *workspace, const uint8_t *first, size_t first_length, const uint8_t *second,
                                                     size_t second_length, const uint8_t *claims, size_t claims_length, uint8_t *out,
                                                     size_t out_length)
{
    return piecebook_compare_with(first, first_length, second, second_length, claims, claims_length, out, out_length, workspace->e, workspace->d,
                                  workspace->t, workspace->u, workspace->p, workspace->q);
}

/* The room of a chain: steps, and their bytes. */
#define PIECEBOOK_STEPS 16400
#define PIECEBOOK_STEP_BYTES 164000

/* number is 0 for an answer, or the number of the refusal: 15 for steps_length below PIECEBOOK_STEP_BYTES, then the book's own, 10 for other than 6 bytes of
   claim, 12, 13, 14; place is the refusal's. answer is PIECEBOOK_FOLLOWS, _DENIED or _OPEN, 0 with a refusal; steps is how many were written. */
typedef struct {
    size_t number;
    size_t place;
    size_t answer;
    size_t steps;
} piecebook_chain_result;

piecebook_chain_result piecebook_chain_with(const uint8_t *book, size_t book_length, const uint8_t *claim, size_t claim_length, uint8_t *steps,
                                            size_t steps_length, uint64_t *e, uint64_t *d, uint64_t *t);

/* Writes the chain behind the answer to one claim: steps of 10 bytes, numbered from 0, of which each premise stands earlier than its use. Byte 0 is 0 for a stored
   record, 1 to 9 for the rules (a), (b), (c), (f), (a'), (b'), (c'), (d'), (e'), 10 for APART and 11 for PART of a marked piece; byte 1 the kind shown; then a, b, the first
   premise's step or the record's number, and the second premise's step, two bytes each, low first; what is not needed is zero. The last step shows the claim where it
   FOLLOWS, its opposite where it is DENIED. A restricted claim's steps cite records of cutting sheets only, and marks. With OPEN and with a refusal nothing is written
   and steps is 0; bytes behind the last step stay as they are. Which of several chains is written is free. */
static inline piecebook_chain_result piecebook_chain(piecebook_workspace *workspace, const uint8_t *book, size_t book_length, const uint8_t *claim,
                                                     size_t claim_length, uint8_t *steps, size_t steps_length)
{
    return piecebook_chain_with(book, book_length, claim, claim_length, steps, steps_length, workspace->e, workspace->d, workspace->t);
}

size_t piecebook_chain_check_with(const uint8_t *book, size_t book_length, const uint8_t *claim, size_t claim_length, const uint8_t *steps,
                                  size_t steps_length, uint64_t *e, uint64_t *d, uint64_t *t);

/* 1 where the steps, whoever wrote them, keep all this and each follows from the book and the premises that it names, else 0: what piecebook_chain writes passes. No
   steps, more than PIECEBOOK_STEPS, a length that is no multiple of 10, and steps on a refused book or claim do not. */
static inline size_t piecebook_chain_check(piecebook_workspace *workspace, const uint8_t *book, size_t book_length, const uint8_t *claim,
                                           size_t claim_length, const uint8_t *steps, size_t steps_length)
{
    return piecebook_chain_check_with(book, book_length, claim, claim_length, steps, steps_length, workspace->e, workspace->d, workspace->t);
}

/* number is 0 for an accepted book, or the number of the refusal: 15 for steps_length below PIECEBOOK_STEP_BYTES, then the book's own; place is its record. steps is how
   many were written: some for 14, else none. */
typedef struct {
    size_t number;
    size_t place;
    size_t steps;
} piecebook_clash_result;

piecebook_clash_result piecebook_clash_with(const uint8_t *book, size_t book_length, uint8_t *steps, size_t steps_length, uint64_t *e, uint64_t *d,
                                            uint64_t *t);

/* Writes the chain behind refusal 14: 1 to PIECEBOOK_STEPS steps as above, whose last one shows the opposite of the fact that the record at place states. They cite records
   before place, of either origin, and marks wherever they stand. For any other book nothing is written; bytes behind the last step stay as they are. Which of several chains
   is written is free. */
static inline piecebook_clash_result piecebook_clash(piecebook_workspace *workspace, const uint8_t *book, size_t book_length, uint8_t *steps,
                                                     size_t steps_length)
{
    return piecebook_clash_with(book, book_length, steps, steps_length, workspace->e, workspace->d, workspace->t);
}

size_t piecebook_clash_check_with(const uint8_t *book, size_t book_length, const uint8_t *steps, size_t steps_length, uint64_t *e, uint64_t *d,
                                  uint64_t *t);

/* 1 where 14 refuses the book and the steps, whoever wrote them, keep all this and each follows from what it cites, else 0: what piecebook_clash writes passes. */
static inline size_t piecebook_clash_check(piecebook_workspace *workspace, const uint8_t *book, size_t book_length, const uint8_t *steps,
                                           size_t steps_length)
{
    return piecebook_clash_check_with(book, book_length, steps, steps_length, workspace->e, workspace->d, workspace->t);
}

/* Text: one record, claim or log entry for each line with words. The calls on text need no workspace. */
enum { PIECEBOOK_RECORDS = 0, PIECEBOOK_CLAIMS = 1, PIECEBOOK_LOG = 2 };

/* The lengths of out below which a text of records, of claims or of log entries is refused by number 6: six bytes for each of the first 8,193 or 4,097 lines with words, or two for
   each of 32,769. Nothing is read behind these. */
#define PIECEBOOK_RECORD_BYTES 49158
#define PIECEBOOK_CLAIM_BYTES 24582
#define PIECEBOOK_LOG_BYTES 65538

/* number is 0 for a text that was read, whose bytes are length, or the reason why it cannot be: of its first bad line, which is line, counted from 1 with all lines, 1 where the first
   word is no kind, 2 where a number is missing or is none up to 65,535, 3 where the word behind the numbers is no origin (for claims: no choice of facts), 4 for a word too many; 5 with
   line 0 for a text above 524,288 bytes. A short out is 6 before all these, and any other form 7; both have line 0. length is 0 with all seven. */
typedef struct {
    size_t number;
    size_t line;
    size_t length;
} piecebook_reading;

/* Reads a text into the front of out: six bytes for each record or claim, two for each log entry, as the other calls take them. Lines end with byte 10, # begins a comment, words stand
   between bytes 9, 13 and 32, letters of either case are the same, and bytes 239 187 191 at the start are passed over:
       PART a b, APART a b, MEETS a b, NOTPART a b, and of records VOID a; behind the numbers of a record may stand sheet or scanner, of a claim all or sheets; of a log one number a line.
   A bad line leaves the entries before it at the front of out; 5 to 7 write nothing. Bytes behind the entries stay as they are. */
piecebook_reading piecebook_read_text(size_t form, const uint8_t *text, size_t text_length, uint8_t *out, size_t out_length);

/* The line that an entry, counted from 0, was read from: the line of a refusal's place. 0 where there is none. */
size_t piecebook_text_line(const uint8_t *text, size_t text_length, size_t entry);

/* So many bytes for each record, or claim, always are enough for a page. */
#define PIECEBOOK_SHOWN_BYTES 28

/* number is 0 for a page that was written, whose text is length bytes, or 1 for one that is too short for the text. */
typedef struct {
    size_t number;
    size_t length;
} piecebook_shown;

/* Writes a book as text to the front of a page, a line for each whole record; bytes behind stay as they are. Of a page that is too short the bytes are free. The text of a book that other
   calls accept, or that only 14 refuses, is read back byte for byte. A kind that a record cannot have has no word. */
piecebook_shown piecebook_show(const uint8_t *book, size_t book_length, uint8_t *page, size_t page_length);

/* The same of claims. */
piecebook_shown piecebook_show_claims(const uint8_t *claims, size_t claims_length, uint8_t *page, size_t page_length);

#ifdef __cplusplus
}
#endif

#endif
