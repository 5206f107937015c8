/* Two calls in plain C for the one kind of claim that is measured: the chain to a PART along the stored PARTs, and the chain behind a record that says a part and its container
   APART. Hops are found breadth first; both come behind the book's rows without an index, as the library's do. */
#ifndef PARTIAL_H
#define PARTIAL_H

#include "plain.h"

#include <string.h>

enum { NO_HOP = 65535 };

static unsigned number(const uint8_t *at)
{
    return at[0] | at[1] << 8;
}

static unsigned put_step(uint8_t *steps, unsigned i, unsigned rule, unsigned kind, unsigned a, unsigned b, unsigned first, unsigned second)
{
    uint8_t bytes[10] = {rule, kind, a, a >> 8, b, b >> 8, first, first >> 8, second, second >> 8};
    memcpy(steps + 10 * i, bytes, 10);
    return i + 1;
}

/* The steps that end in g PART k, along the first PARTs of the book and rule (f); how many they are, 0 where there is no way. */
static unsigned plain_part(const uint8_t *book, unsigned records, unsigned pieces, unsigned g, unsigned k, uint8_t *steps)
{
    static uint16_t first[2048], next[8192], hop[2048], source[2048], queue[2048];
    for (unsigned p = 0; p < pieces; p++)
        first[p] = NO_HOP, hop[p] = NO_HOP;
    for (unsigned i = 0; i < records; i++)
        if (book[6 * i] == PIECEBOOK_PART) {
            unsigned b = number(book + 6 * i + 4);
            next[i] = first[b], first[b] = i;
        }
    unsigned tail = 0;
    hop[k] = k, queue[tail++] = k;
    for (unsigned head = 0; head < tail; head++) {
        unsigned c = queue[head];
        for (unsigned i = first[c]; i != NO_HOP; i = next[i]) {
            unsigned p = number(book + 6 * i + 2);
            if (hop[p] == NO_HOP)
                hop[p] = c, source[p] = i, queue[tail++] = p;
        }
        for (unsigned p = 1; c == 0 && p < pieces; p++)
            if (hop[p] == NO_HOP)
                hop[p] = 0, source[p] = NO_HOP, queue[tail++] = p;
    }
    if (hop[g] == NO_HOP)
        return 0;
    if (g == k)
        return put_step(steps, 0, 3, PIECEBOOK_PART, g, g, 0, 0);
    unsigned m = 0;
    for (unsigned x = g; x != k; x = hop[x]) {
        int joined = source[x] == NO_HOP;
        m = put_step(steps, m, joined ? 4 : 0, PIECEBOOK_PART, x, hop[x], joined ? 0 : source[x], 0);
        if (m > 1)
            m = put_step(steps, m, 1, PIECEBOOK_PART, g, hop[x], m - 2, m - 1);
    }
    return m;
}

static piecebook_chain_result plain_chain(piecebook_workspace *w, const uint8_t *book, size_t book_length, const uint8_t *claim, uint8_t *steps)
{
    piecebook_result r = plain_judge_with(book, book_length, w->e, w->d, w->t);
    unsigned m = r.number != 0 ? 0 : plain_part(book, book_length / 6, r.pieces, number(claim + 2), number(claim + 4), steps);
    return (piecebook_chain_result){r.number, r.place, m == 0 ? 0 : PIECEBOOK_FOLLOWS, m};
}

/* The part PART of the container, the part MEETS itself (e'), so it MEETS the container (c'). */
static piecebook_clash_result plain_clash(piecebook_workspace *w, const uint8_t *book, size_t book_length, unsigned pieces, uint8_t *steps)
{
    piecebook_result r = plain_judge_with(book, book_length, w->e, w->d, w->t);
    const uint8_t *clashing = book + 6 * r.place;
    unsigned a = number(clashing + 2), b = number(clashing + 4), m = plain_part(book, r.place, pieces, a, b, steps);
    m = put_step(steps, m, 9, PIECEBOOK_MEETS, a, a, 0, 0);
    m = put_step(steps, m, 7, PIECEBOOK_MEETS, a, b, m - 2, m - 1);
    return (piecebook_clash_result){r.number, r.place, m};
}

#endif
