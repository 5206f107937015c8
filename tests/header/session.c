/* Every call of include/piecebook.h once, on the printed session, from C and from C++: that the header's declarations are those of the library. */
#include "../../include/piecebook.h"

#include <stdio.h>
#include <string.h>

static const uint8_t book[54] = {1, 0, 1, 0, 0, 0, 1, 0, 2, 0, 0, 0, 1, 0, 3, 0, 1, 0, 1, 0, 4, 0, 1, 0, 1, 0, 4, 0,
                                 2, 0, 1, 0, 5, 0, 4, 0, 2, 0, 3, 0, 4, 0, 3, 0, 3, 0, 2, 0, 4, 0, 2, 0, 1, 0};
/* PART 5 2 follows, PART 2 1 is denied, PART 3 2 is open. */
static const uint8_t claims[18] = {1, 0, 5, 0, 2, 0, 1, 0, 2, 0, 1, 0, 1, 0, 3, 0, 2, 0};

static piecebook_workspace workspace;
static uint8_t parentheses[PIECEBOOK_PARENTHESES], marks[PIECEBOOK_MARKS], answers[3], area[PIECEBOOK_AREA], steps[PIECEBOOK_STEP_BYTES], out[54];
static uint16_t shadows[PIECEBOOK_SHADOWS], places[PIECEBOOK_PLACES];
static unsigned passed, failed;

static void expect(const char *call, int good)
{
    if (!good)
        printf("FAIL %s\n", call);
    passed += good != 0;
    failed += good == 0;
}

static void index_calls(void)
{
    static const uint8_t wanted[3] = {PIECEBOOK_FOLLOWS, PIECEBOOK_DENIED, PIECEBOOK_OPEN};
    piecebook_result r = piecebook_answer(&workspace, book, sizeof book, claims, sizeof claims, parentheses, sizeof parentheses, marks, sizeof marks,
                                          shadows, PIECEBOOK_SHADOWS, places, PIECEBOOK_PLACES, answers, sizeof answers);
    expect("answer", r.number == 0 && r.pieces == 6 && r.nodes == 7 && r.shadows == 1 && memcmp(answers, wanted, sizeof wanted) == 0);
    expect("answer's index", parentheses[0] == 55 && marks[0] == 64 && shadows[0] == 3 && places[2] == 5);
    r = piecebook_index(&workspace, book, sizeof book, parentheses, sizeof parentheses - 1, marks, sizeof marks, shadows, PIECEBOOK_SHADOWS, places,
                        PIECEBOOK_PLACES);
    expect("index, a byte short", r.number == 1 && r.pieces == 0);
    r = piecebook_index(&workspace, book, sizeof book, parentheses, sizeof parentheses, marks, sizeof marks, shadows, PIECEBOOK_SHADOWS, places,
                        PIECEBOOK_PLACES);
    expect("index", r.number == 0 && r.nodes == 7 && places[5] == 4);
    r = piecebook_answer(&workspace, NULL, 0, NULL, 0, parentheses, sizeof parentheses, marks, sizeof marks, shadows, PIECEBOOK_SHADOWS, places,
                         PIECEBOOK_PLACES, NULL, 0);
    expect("answer, nothing", r.number == 0 && r.pieces == 1 && r.nodes == 1 && parentheses[0] == 1);
    r = piecebook_answer(&workspace, NULL, 0, claims, sizeof claims, parentheses, sizeof parentheses, marks, sizeof marks, shadows,
                         PIECEBOOK_SHADOWS, places, PIECEBOOK_PLACES, NULL, 0);
    expect("answer, no room", r.number == 1);
    piecebook_grids g = piecebook_grid(&workspace, book, sizeof book);
    expect("grid", g.number == 0 && g.part[5] == 55 && g.apart[3] == 48 && g.meets[5] == 55 && g.notpart[0] == 58);
}

static void catalog_calls(void)
{
    static uint16_t list[PIECEBOOK_LIST], meets[PIECEBOOK_PAIRS], apart[PIECEBOOK_PAIRS], notpart[PIECEBOOK_PAIRS];
    piecebook_catalog_result c = piecebook_catalog(&workspace, book, sizeof book, PIECEBOOK_PART, 1, parentheses, sizeof parentheses, marks, sizeof marks,
                                                   shadows, PIECEBOOK_SHADOWS, places, PIECEBOOK_PLACES, list, PIECEBOOK_LIST, meets, PIECEBOOK_PAIRS,
                                                   apart, PIECEBOOK_PAIRS, notpart, PIECEBOOK_PAIRS);
    expect("catalog", c.number == 0 && c.listed == 4 && list[3] == 5 && c.meets == 1 && c.apart == 1 && c.notpart == 1 && notpart[0] == 5);
    piecebook_range x = piecebook_subtree(parentheses, sizeof parentheses, places, PIECEBOOK_PLACES, 1);
    expect("subtree", x.from == 1 && x.to == 4);
    expect("fact_between", piecebook_fact_between(apart, PIECEBOOK_PAIRS, c.apart, 1, x.from, x.to, x.from, x.to) == 1);
    expect("fact_between, none", piecebook_fact_between(apart, PIECEBOOK_PAIRS, c.apart, 1, 0, 1, x.from, x.to) == 0);
}

static void working_calls(void)
{
    piecebook_working state = {7, 7};
    piecebook_working_result r = piecebook_start(&workspace, &state, area, sizeof area);
    expect("start", r.number == 0 && state.records == 0 && state.pieces == 1);
    for (unsigned i = 0; i < 9; i++)
        r = piecebook_add(&workspace, &state, area, sizeof area, book + 6 * i, 6);
    expect("add", r.number == 0 && state.records == 9 && state.pieces == 6 && memcmp(area, book, sizeof book) == 0);
    r = piecebook_ask(&workspace, &state, area, sizeof area, claims + 6, 6);
    expect("ask", r.number == 0 && r.answer == PIECEBOOK_DENIED && state.records == 9);
    r = piecebook_withdraw(&workspace, &state, area, sizeof area, 8);
    expect("withdraw", r.number == 0 && state.records == 8 && area[48] == 0);
    r = piecebook_withdraw(&workspace, &state, area, sizeof area, 8);
    expect("withdraw, none", r.number == 18 && r.place == 0 && state.records == 8);
}

static void other_calls(void)
{
    static const uint8_t former[12] = {5, 0, 3, 0, 9, 0, 2, 0, 1, 0, 2, 0}, log_bytes[4] = {3, 0, 4, 0};
    piecebook_converted c = piecebook_convert(&workspace, former, sizeof former, out, sizeof out);
    expect("convert", c.number == 0 && c.length == 12 && out[0] == PIECEBOOK_APART && out[6] == PIECEBOOK_PART && out[8] == 3);
    piecebook_window window = {{0}, 0};
    piecebook_replicates_result r = piecebook_replicates(&workspace, book, sizeof book, window, log_bytes, sizeof log_bytes, out, sizeof out);
    expect("replicates", r.number == 0 && r.window.count == 2 && r.window.pieces[1] == 4 && out[0] == 0 && out[2] == 1 && out[3] == 1);
    piecebook_comparison two = piecebook_compare(&workspace, book, sizeof book, book, 12, claims, sizeof claims, out, sizeof out);
    expect("compare", two.number == 0 && two.book == 0 && two.together == 1 && out[0] == 1 && out[1] == 3 && out[2] == 2);
    two = piecebook_compare(&workspace, book, sizeof book, book, 11, claims, sizeof claims, out, sizeof out);
    expect("compare, a part of a record", two.number == 3 && two.book == 2);
}

static void chain_calls(void)
{
    piecebook_chain_result r = piecebook_chain(&workspace, book, sizeof book, claims, 6, steps, sizeof steps);
    expect("chain", r.number == 0 && r.answer == PIECEBOOK_FOLLOWS && r.steps > 0);
    expect("chain_check", piecebook_chain_check(&workspace, book, sizeof book, claims, 6, steps, 10 * r.steps) == 1);
    expect("chain_check, another claim", piecebook_chain_check(&workspace, book, sizeof book, claims + 12, 6, steps, 10 * r.steps) == 0);
}

static void clash_calls(void)
{
    static const uint8_t last[6] = {PIECEBOOK_MEETS, PIECEBOOK_CUTTING_SHEET, 5, 0, 3, 0};
    uint8_t clashing[sizeof book + sizeof last];
    memcpy(clashing, book, sizeof book);
    memcpy(clashing + sizeof book, last, sizeof last);
    piecebook_clash_result r = piecebook_clash(&workspace, clashing, sizeof clashing, steps, sizeof steps);
    expect("clash", r.number == 14 && r.place == 9 && r.steps > 1);
    expect("clash_check", piecebook_clash_check(&workspace, clashing, sizeof clashing, steps, 10 * r.steps) == 1);
    expect("clash_check, no last step", piecebook_clash_check(&workspace, clashing, sizeof clashing, steps, 10 * r.steps - 10) == 0);
    r = piecebook_clash(&workspace, book, sizeof book, steps, sizeof steps);
    expect("clash, an accepted book", r.number == 0 && r.place == 0 && r.steps == 0);
}

static void text_calls(void)
{
    static const char text[] = "# the session\nPART 3 1\n\nvoid 7 Scanner # a comment", bad[] = "MEETS 3 2 all\nMEETS 3 2 sheet\n", log_text[] = "7\n65535\n";
    static const uint8_t records[12] = {PIECEBOOK_PART, 0, 3, 0, 1, 0, PIECEBOOK_VOID, PIECEBOOK_SCANNER, 7, 0, 0, 0};
    static const char shown[] = "PART 3 1\nVOID 7 scanner\n";
    static uint8_t read[PIECEBOOK_LOG_BYTES], page[2 * PIECEBOOK_SHOWN_BYTES];
    piecebook_reading r = piecebook_read_text(PIECEBOOK_RECORDS, (const uint8_t *)text, sizeof text - 1, read, PIECEBOOK_RECORD_BYTES);
    expect("read_text", r.number == 0 && r.line == 0 && r.length == sizeof records && memcmp(read, records, sizeof records) == 0);
    expect("text_line", piecebook_text_line((const uint8_t *)text, sizeof text - 1, 1) == 4 && piecebook_text_line((const uint8_t *)text, sizeof text - 1, 2) == 0);
    r = piecebook_read_text(PIECEBOOK_CLAIMS, (const uint8_t *)bad, sizeof bad - 1, read, PIECEBOOK_CLAIM_BYTES);
    expect("read_text, a bad line", r.number == 3 && r.line == 2 && r.length == 0);
    r = piecebook_read_text(PIECEBOOK_LOG, (const uint8_t *)log_text, sizeof log_text - 1, read, PIECEBOOK_LOG_BYTES);
    expect("read_text, a log", r.number == 0 && r.length == 4 && read[0] == 7 && read[3] == 255);
    r = piecebook_read_text(PIECEBOOK_LOG, NULL, 0, read, PIECEBOOK_LOG_BYTES - 1);
    expect("read_text, a byte short", r.number == 6);
    r = piecebook_read_text(3, NULL, 0, NULL, 0);
    expect("read_text, no form", r.number == 7);
    piecebook_shown s = piecebook_show(records, sizeof records, page, sizeof page);
    expect("show", s.number == 0 && s.length == sizeof shown - 1 && memcmp(page, shown, sizeof shown - 1) == 0);
    s = piecebook_show(records, sizeof records, page, sizeof shown - 2);
    expect("show, a byte short", s.number == 1 && s.length == 0);
    s = piecebook_show(NULL, 0, NULL, 0);
    expect("show, nothing", s.number == 0 && s.length == 0);
    s = piecebook_show_claims(claims, sizeof claims, page, sizeof page);
    expect("show_claims", s.number == 0 && s.length == 27 && memcmp(page, "PART 5 2\n", 9) == 0);
}

int main(void)
{
    memset(&workspace, 0xa5, sizeof workspace);
    index_calls();
    catalog_calls();
    working_calls();
    other_calls();
    chain_calls();
    clash_calls();
    text_calls();
    printf("%u passed, %u failed\n", passed, failed);
    return failed != 0;
}
