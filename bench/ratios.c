/* Every call of the library beside the same in plain C, on small books and on books of full size: a table in Markdown. Times are the processor's; a cell has the library's
   microseconds and the median of its ratios to C. */
#define _POSIX_C_SOURCE 199309L
#include "books.h"
#include "partial.h"
#include "times.h"

#include <stdio.h>

enum { ENTRIES = 32768, QUESTIONS = 200, WIDTH = 10, SMALL = 100, FULL = 8192 };

/* What a call writes, and what it returns. */
typedef struct {
    uint8_t parentheses[PIECEBOOK_PARENTHESES], marks[PIECEBOOK_MARKS], answers[4096], out[8192 * 6], counts[2 * ENTRIES], area[PIECEBOOK_AREA];
    uint16_t shadows[PIECEBOOK_SHADOWS], places[PIECEBOOK_PLACES], list[PIECEBOOK_LIST], areas[3][PIECEBOOK_PAIRS];
    uint8_t page[FULL * PIECEBOOK_SHOWN_BYTES], read[PIECEBOOK_RECORD_BYTES];
    piecebook_working state;
    size_t yes, line;
} written;

static struct {
    piecebook_result answer, index;
    piecebook_grids grid;
    piecebook_working_result add, withdraw, ask;
    piecebook_converted convert;
    piecebook_catalog_result catalog;
    piecebook_replicates_result replicates;
    piecebook_comparison compare;
    piecebook_chain_result chain;
    piecebook_clash_result clash;
    size_t chain_check, clash_check;
    piecebook_reading read;
    piecebook_shown show;
} results[2];

static written all[2];
static piecebook_workspace workspace;
static sample s, other;
static unsigned pieces, kind;
static uint8_t claim[6], log_bytes[2 * ENTRIES], steps[2][PIECEBOOK_STEP_BYTES];
static piecebook_window window;

#define BOOK s.book, s.records * 6
#define CLAIMS s.asked, s.claims * 6
#define PARTS w->parentheses, PIECEBOOK_PARENTHESES, w->marks, PIECEBOOK_MARKS, w->shadows, PIECEBOOK_SHADOWS, w->places, PIECEBOOK_PLACES
#define LISTS w->list, PIECEBOOK_LIST, w->areas[0], PIECEBOOK_PAIRS, w->areas[1], PIECEBOOK_PAIRS, w->areas[2], PIECEBOOK_PAIRS
#define AREA &w->state, w->area, PIECEBOOK_AREA
#define THREE workspace.e, workspace.d, workspace.t
#define SIX THREE, workspace.u, workspace.p, workspace.q

/* The same call of both. */
#define BOTH(call, ...)                                                                                                                                    \
    static void our_##call(void)                                                                                                                           \
    {                                                                                                                                                      \
        written *w = &all[0];                                                                                                                              \
        (void)w, results[0].call = piecebook_##call##_with(__VA_ARGS__);                                                                                    \
    }                                                                                                                                                      \
    static void their_##call(void)                                                                                                                         \
    {                                                                                                                                                      \
        written *w = &all[1];                                                                                                                              \
        (void)w, results[1].call = plain_##call##_with(__VA_ARGS__);                                                                                        \
    }

BOTH(answer, BOOK, CLAIMS, PARTS, w->answers, 4096, SIX)
BOTH(index, BOOK, PARTS, SIX)
BOTH(grid, BOOK, THREE)
BOTH(convert, BOOK, w->out, sizeof w->out, THREE)
BOTH(catalog, BOOK, kind, pieces - 2, PARTS, LISTS, THREE)
BOTH(replicates, BOOK, window, log_bytes, 2 * (s.records > SMALL ? ENTRIES : SMALL), w->counts, sizeof w->counts, THREE, workspace.u)
BOTH(compare, BOOK, other.book, other.records * 6, CLAIMS, w->out, sizeof w->out, SIX)
BOTH(add, AREA, s.book + 6 * (s.records - 1), 6, THREE)
BOTH(withdraw, AREA, 0, THREE)
BOTH(ask, AREA, s.asked, 6, SIX)
BOTH(chain_check, BOOK, claim, 6, steps[0], 10 * results[0].chain.steps, THREE)

static void our_chain(void)
{
    results[0].chain = piecebook_chain(&workspace, BOOK, claim, 6, steps[0], sizeof steps[0]);
}

static void their_chain(void)
{
    results[1].chain = plain_chain(&workspace, BOOK, claim, steps[1]);
}

BOTH(clash_check, BOOK, steps[0], 10 * results[0].clash.steps, THREE)

static void our_clash(void)
{
    results[0].clash = piecebook_clash(&workspace, BOOK, steps[0], sizeof steps[0]);
}

static void their_clash(void)
{
    results[1].clash = plain_clash(&workspace, BOOK, pieces, steps[1]);
}

/* The book as text, which is read again. */
static uint8_t text[FULL * PIECEBOOK_SHOWN_BYTES];
static size_t text_length;

#define BOTH_ON_TEXT(name, result, call, ...)                                                                                                              \
    static void our_##name(void)                                                                                                                           \
    {                                                                                                                                                      \
        const unsigned i = 0;                                                                                                                              \
        result = piecebook_##call(__VA_ARGS__);                                                                                                            \
    }                                                                                                                                                      \
    static void their_##name(void)                                                                                                                         \
    {                                                                                                                                                      \
        const unsigned i = 1;                                                                                                                              \
        result = plain_##call(__VA_ARGS__);                                                                                                                \
    }

BOTH_ON_TEXT(read, results[i].read, read_text, PIECEBOOK_RECORDS, text, text_length, all[i].read, sizeof all[i].read)
BOTH_ON_TEXT(show, results[i].show, show, BOOK, all[i].page, sizeof all[i].page)
BOTH_ON_TEXT(line, all[i].line, text_line, text, text_length, s.records - 1)

/* A claim alone, beside which `ask` is measured. */
static void our_claim(void)
{
    written *w = &all[0];
    results[0].answer = piecebook_answer(&workspace, BOOK, s.asked, 6, PARTS, w->answers, 4096);
}

static void ask_ranges(__typeof__(piecebook_fact_between) question, written *w)
{
    random_state = 1;
    w->yes = 0;
    for (unsigned i = 0; i < QUESTIONS; i++) {
        unsigned row = below(pieces), column = below(pieces);
        w->yes += question(all[0].areas[0], PIECEBOOK_PAIRS, results[0].catalog.meets, 1, row, row + WIDTH - 1, column, column + WIDTH - 1);
    }
}

static void our_ranges(void)
{
    ask_ranges(piecebook_fact_between, &all[0]);
}

static void their_ranges(void)
{
    ask_ranges(plain_fact_between, &all[1]);
}

/* The book but for its last record stands; all of it stands. */
static void stand(written *w, unsigned records)
{
    w->state = (piecebook_working){records, pieces};
    memset(w->area, 0, sizeof w->area);
    memcpy(w->area, s.book, 6 * records);
}

static void but_one(unsigned which)
{
    stand(&all[which], s.records - 1);
}

static void whole(unsigned which)
{
    stand(&all[which], s.records);
}

/* Makes the books. */

/* A book of the layout that was laid last: the same PART records, and other facts. */
static void make_other(void)
{
    other.records = 0;
    for (unsigned i = 0; i < s.records; i++)
        if (s.book[i * 6] == PART)
            memcpy(other.book + other.records++ * 6, s.book + i * 6, 6);
    while (other.records < s.records) {
        unsigned fact = APART + below(3), a = below(pieces), b = below(pieces);
        if (keeps(fact, a, b))
            add(&other, fact, a, b);
    }
}

typedef struct {
    const char *name;
    enum shape shape;
    unsigned pieces, records;
} column;

static const column columns[] = {{"small, tree", TREE, 40, SMALL}, {"small, circles", EIGHTS, 42, SMALL}, {"tree", TREE, 2048, FULL},
                                 {"line", DEEP, 2048, FULL},       {"ladder", LADDER, 2048, FULL},        {"dense", DENSE, 2048, FULL},
                                 {"one circle", ROUND, 2048, FULL}};
enum { COLUMNS = sizeof columns / sizeof *columns };

static void make_usual(const column *c)
{
    pieces = c->pieces;
    make_sample(&s, c->shape, pieces, c->records, c->records == FULL ? 4096 : SMALL);
    make_other();
    for (unsigned i = 0; i < ENTRIES; i++) {
        unsigned piece = below(pieces);
        log_bytes[2 * i] = piece, log_bytes[2 * i + 1] = piece >> 8;
    }
    /* along the whole line, all the way round, or up to the top */
    write_record(claim, PART, c->shape == ROUND || c->shape == EIGHTS ? 2 : pieces - 1, c->shape == DEEP || c->shape == ROUND || c->shape == EIGHTS ? 1 : 0);
    shuffle(&s);
}

/* The claim is a fact that the book has: its chain has one step. */
static void make_one_step(const column *c)
{
    make_usual(c);
    unsigned i = 0;
    while (s.book[i * 6] != PART)
        i++;
    memcpy(claim, s.book + i * 6, 6);
}

/* One record in ten is the scanner's. */
static void make_text(const column *c)
{
    make_usual(c);
    for (unsigned i = 0; i < s.records; i += 10)
        s.book[i * 6 + 1] = 1;
    text_length = piecebook_show(BOOK, text, sizeof text).length;
}

static void make_half_restricted(const column *c)
{
    make_usual(c);
    restrict_half(&s);
}

static void make_former(const column *c)
{
    make_usual(c);
    put_on_trays(&s, pieces);
}

static void make_contradictory(const column *c)
{
    make_usual(c);
    make_sample(&s, c->shape, pieces, c->records, s.claims);
    contradict_late(&s);
}

/* Of as many pieces as a grid may have. */
static void make_few(const column *c)
{
    column few = *c;
    few.pieces = c->records == FULL ? 64 : c->pieces, few.records = c->records == FULL ? 500 : SMALL;
    make_usual(&few);
    pieces = few.pieces;
}

/* The table. */

typedef struct {
    const char *name;
    void (*make)(const column *), (*ours)(void), (*theirs)(void), (*before)(unsigned);
    unsigned kind, number, own; /* of a catalog; the number that it comes to; the other is a call of the library too */
} line;

static const line lines[] = {
    {"answer", make_usual, our_answer, their_answer, NULL, 0, 0, 0},
    {"answer, half restricted", make_half_restricted, our_answer, their_answer, NULL, 0, 0, 0},
    {"answer, refused by 14", make_contradictory, our_answer, their_answer, NULL, 0, 14, 0},
    {"index", make_usual, our_index, their_index, NULL, 0, 0, 0},
    {"convert", make_former, our_convert, their_convert, NULL, 0, 0, 0},
    {"catalog, PART", make_usual, our_catalog, their_catalog, NULL, PART, 0, 0},
    {"catalog, APART", make_usual, our_catalog, their_catalog, NULL, APART, 0, 0},
    {"catalog, MEETS", make_usual, our_catalog, their_catalog, NULL, MEETS, 0, 0},
    {"200 range questions", make_usual, our_ranges, their_ranges, NULL, MEETS, 0, 0},
    {"replicates", make_usual, our_replicates, their_replicates, NULL, 0, 0, 0},
    {"grid (at most 64 pieces, 500 records)", make_few, our_grid, their_grid, NULL, 0, 0, 0},
    {"compare", make_usual, our_compare, their_compare, NULL, 0, 0, 0},
    {"add", make_usual, our_add, their_add, but_one, 0, 0, 0},
    {"add, to an index call", make_usual, our_add, our_index, but_one, 0, 0, 1},
    {"withdraw", make_usual, our_withdraw, their_withdraw, whole, 0, 0, 0},
    {"withdraw, to an index call", make_usual, our_withdraw, our_index, whole, 0, 0, 1},
    {"ask", make_usual, our_ask, their_ask, NULL, 0, 0, 0},
    {"ask, to an answer call of one claim", make_usual, our_ask, our_claim, NULL, 0, 0, 1},
    {"chain, PART", make_usual, our_chain, their_chain, NULL, 0, 0, 0},
    {"chain of one step", make_one_step, our_chain, their_chain, NULL, 0, 0, 0},
    {"chain of one step, to an index call", make_one_step, our_chain, our_index, NULL, 0, 0, 1},
    {"chain_check", make_usual, our_chain_check, their_chain_check, NULL, 0, 0, 0},
    {"clash, APART", make_contradictory, our_clash, their_clash, NULL, 0, 14, 0},
    {"clash_check", make_contradictory, our_clash_check, their_clash_check, NULL, 0, 14, 0},
    {"read_text", make_text, our_read, their_read, NULL, 0, 0, 0},
    {"show", make_text, our_show, their_show, NULL, 0, 0, 0},
    {"text_line, of the last record", make_text, our_line, their_line, NULL, 0, 0, 0},
};

/* The number of the call that was measured, of either. */
static size_t number_of(const line *l, unsigned i)
{
    const size_t numbers[] = {results[i].answer.number,  results[i].index.number,      results[i].grid.number,    results[i].add.number,
                              results[i].convert.number, results[i].withdraw.number,   results[i].ask.number,     results[i].catalog.number,
                              results[i].compare.number, results[i].replicates.number, results[i].chain.number,
                              results[i].clash.number,   results[i].read.number,       results[i].show.number};
    size_t sum = 0;
    for (unsigned j = 0; j < sizeof numbers / sizeof *numbers; j++)
        sum += numbers[j];
    return l->own ? l->number : sum;
}

static int same(const line *l)
{
    if (number_of(l, 0) != l->number || number_of(l, 1) != l->number || results[0].chain_check != results[1].chain_check ||
        results[0].clash_check != results[1].clash_check)
        return 0;
    if (l->make == make_one_step && results[0].chain.steps != 1)
        return 0;
    if ((l->ours == our_chain_check && results[0].chain_check != 1) || (l->ours == our_clash_check && results[0].clash_check != 1))
        return 0;
    return l->own || (memcmp(&all[0], &all[1], sizeof all[0]) == 0 && memcmp(&results[0].grid, &results[1].grid, sizeof results[0].grid) == 0);
}

static void cell(const line *l, const column *c)
{
    if (l->make == make_former && c->shape > DENSE) {
        printf(" - |");
        return;
    }
    memset(all, 0, sizeof all);
    memset(results, 0, sizeof results);
    l->make(c);
    kind = l->kind;
    whole(0), whole(1);
    if (l->ours == our_ranges)
        our_catalog(), memcpy(&all[1], &all[0], sizeof all[0]), results[1].catalog = results[0].catalog;
    if (l->ours == our_chain_check)
        our_chain(), results[1].chain = results[0].chain;
    if (l->ours == our_clash_check)
        our_clash(), results[1].clash = results[0].clash;
    unsigned small = c->records == SMALL;
    pair p = medians(l->ours, l->theirs, l->before, small ? 101 : l->number == 14 ? 5 : 21, small && l->before == NULL ? 8 : 1);
    if (!same(l)) {
        printf("\n%s, %s: the two differ, or the number is not %u\n", l->name, c->name, l->number);
        exit(1);
    }
    printf(p.first < 100 ? " %.1f, %.2f |" : " %.0f, %.2f |", p.first, p.ratio);
    fflush(stdout);
}

int main(void)
{
    printf("| call |");
    for (unsigned c = 0; c < COLUMNS; c++)
        printf(" %s |", columns[c].name);
    printf("\n|---|");
    for (unsigned c = 0; c < COLUMNS; c++)
        printf("---|");
    printf("\n");
    for (unsigned l = 0; l < sizeof lines / sizeof *lines; l++) {
        printf("| %s |", lines[l].name);
        for (unsigned c = 0; c < COLUMNS; c++)
            cell(&lines[l], &columns[c]);
        printf("\n");
    }
    return 0;
}
