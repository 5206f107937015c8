/* Books of chosen shapes for the measures of the whole call, always the same ones. */
#ifndef BOOKS_H
#define BOOKS_H

#include <stdint.h>
#include <string.h>

enum { PART = 1, APART, MEETS, NOTPART, TRAY };
/* Containers have lower numbers up to DENSE, and any from SHUFFLED on. */
enum shape { TREE, DEEP, LADDER, DENSE, SHUFFLED, WORST, COUPLES, EIGHTS, ROUND, WHOLE, SCATTERED };

typedef struct {
    unsigned records, claims;
    uint8_t book[8192 * 6], asked[4096 * 6];
} sample;

/* splitmix64 */
static uint64_t random_state;

static unsigned below(unsigned end)
{
    uint64_t z = random_state += 0x9e3779b97f4a7c15;
    z = (z ^ z >> 30) * 0xbf58476d1ce4e5b9;
    z = (z ^ z >> 27) * 0x94d049bb133111eb;
    return (z ^ z >> 31) % end;
}

static void write_record(uint8_t *at, unsigned kind, unsigned a, unsigned b)
{
    uint8_t bytes[6] = {kind, 0, a, a >> 8, b, b >> 8};
    memcpy(at, bytes, 6);
}

/* Adds a record that is not there yet. */
static void add(sample *s, unsigned kind, unsigned a, unsigned b)
{
    uint8_t *next = s->book + s->records * 6;
    write_record(next, kind, a, b);
    for (uint8_t *at = s->book; at < next; at += 6)
        if (memcmp(at, next, 6) == 0)
            return;
    s->records++;
}

static void add_containers(sample *s, enum shape shape, unsigned part)
{
    switch (shape) {
    case TREE: /* three parts a container, one part in ten in two */
        add(s, PART, part, (part - 1) / 3);
        if (below(10) == 0)
            add(s, PART, part, below(part));
        break;
    case DEEP: /* one chain */
        add(s, PART, part, part - 1);
        break;
    case LADDER: /* two pieces a level, each in both of the level above */
        for (unsigned above = (part - 1) / 2 * 2, i = 0; i < 2; i++)
            add(s, PART, part, above == 0 ? 0 : above - i);
        break;
    case DENSE: /* up to three of the sixty pieces before */
        for (unsigned i = 0; i < 3; i++)
            add(s, PART, part, part - 1 - below(part < 60 ? part : 60));
        break;
    default:
        break;
    }
}

static void add_ring(sample *s, unsigned first, unsigned count)
{
    for (unsigned i = 0; i < count; i++)
        add(s, PART, first + i, first + (i + 1) % count);
}

/* The tree of above under shuffled numbers. */
static void add_shuffled(sample *s, unsigned pieces)
{
    uint16_t name[2048];
    for (unsigned p = 0; p < pieces; p++)
        name[p] = p;
    for (unsigned p = pieces - 1; p > 1; p--) {
        unsigned q = 1 + below(p);
        uint16_t n = name[p];
        name[p] = name[q], name[q] = n;
    }
    for (unsigned part = 1; part < pieces; part++) {
        add(s, PART, name[part], name[(part - 1) / 3]);
        if (below(10) == 0)
            add(s, PART, name[part], name[below(part)]);
    }
}

static void add_free(sample *s, enum shape shape, unsigned pieces, unsigned records)
{
    switch (shape) {
    case SHUFFLED:
        add_shuffled(s, pieces);
        break;
    case WORST: /* one chain, each container's number the next */
        for (unsigned part = 1; part + 1 < pieces; part++)
            add(s, PART, part, part + 1);
        break;
    case COUPLES: /* circles of two in a chain */
        for (unsigned part = 1; part + 1 < pieces; part += 2) {
            add_ring(s, part, 2);
            if (part > 2)
                add(s, PART, part, part - 2);
        }
        break;
    case EIGHTS: /* circles of eight, each in two before */
        for (unsigned part = 1; part + 7 < pieces; part += 8) {
            add_ring(s, part, 8);
            if (part > 8) {
                add(s, PART, part, 1 + below(part - 1));
                add(s, PART, part + 3, 1 + below(part - 1));
            }
        }
        break;
    case ROUND: /* one circle of all but 0 */
        add_ring(s, 1, pieces - 1);
        break;
    case WHOLE: /* one circle of all */
        add_ring(s, 0, pieces);
        break;
    case SCATTERED: /* as many pairs as there are records */
        while (s->records < records)
            add(s, PART, 1 + below(pieces - 1), 1 + below(pieces - 1));
        break;
    default:
        break;
    }
}

enum { GRAINS = 512 / 64 };
static uint64_t ice[2048][GRAINS];

static int pour(unsigned part, unsigned container)
{
    uint64_t more = 0;
    for (unsigned w = 0; w < GRAINS; w++) {
        more |= ice[part][w] & ~ice[container][w];
        ice[container][w] |= ice[part][w];
    }
    return more != 0;
}

/* A laying of the PART records: each piece gets a grain or two, and all that its parts have, from the last record up and from the first down until none gets
   more. */
static void lay(const sample *s, unsigned pieces)
{
    memset(ice, 0, sizeof ice);
    for (unsigned p = 0; p < pieces; p++)
        for (unsigned i = 0; i < 2; i++) {
            unsigned grain = below(512);
            ice[p][grain / 64] |= (uint64_t)1 << grain % 64;
        }
    for (int more = 1, rising = 0; more; rising = !rising) {
        more = 0;
        for (unsigned j = 0; j < s->records; j++) {
            const uint8_t *r = s->book + (rising ? j : s->records - 1 - j) * 6;
            more |= pour(r[2] | r[3] << 8, r[4] | r[5] << 8);
        }
        for (unsigned p = 1; p < pieces; p++)
            more |= pour(p, 0);
    }
}

static int keeps(unsigned kind, unsigned a, unsigned b)
{
    uint64_t common = 0, outside = 0;
    for (unsigned w = 0; w < GRAINS; w++) {
        common |= ice[a][w] & ice[b][w];
        outside |= ice[a][w] & ~ice[b][w];
    }
    return kind == APART ? common == 0 : kind == MEETS ? common != 0 : outside != 0;
}

/* A book that is accepted: containment of the given shape, then facts that one laying keeps. */
static void make_sample(sample *s, enum shape shape, unsigned pieces, unsigned records, unsigned claims)
{
    random_state = shape;
    s->records = 0;
    for (unsigned part = 1; part < pieces; part++)
        add_containers(s, shape, part);
    add_free(s, shape, pieces, records);
    lay(s, pieces);
    while (s->records < records) {
        unsigned kind = APART + below(3), a = below(pieces), b = below(pieces);
        if (keeps(kind, a, b))
            add(s, kind, a, b);
    }
    s->claims = claims;
    for (unsigned i = 0; i < claims; i++)
        write_record(s->asked + i * 6, PART + below(4), below(pieces), below(pieces));
}

/* Asks every second claim of cutting sheets only. */
static void restrict_half(sample *s)
{
    for (unsigned i = 1; i < s->claims; i += 2)
        s->asked[i * 6 + 1] = 1;
}

/* Makes a book of the former edition: every eighth record becomes a TRAY record. */
static void put_on_trays(sample *s, unsigned pieces)
{
    for (unsigned i = 7; i < s->records; i += 8)
        write_record(s->book + i * 6, TRAY, below(pieces), i);
}

static void shuffle(sample *s)
{
    for (unsigned i = s->records - 1; i > 0; i--) {
        uint8_t *x = s->book + i * 6, *y = s->book + below(i + 1) * 6, bytes[6];
        memcpy(bytes, x, 6);
        memcpy(x, y, 6);
        memcpy(y, bytes, 6);
    }
}

/* Makes the last record an APART of a part and its container. The PART records stand first, so that each shorter run is nearly as deep. */
static void contradict_late(sample *s)
{
    for (unsigned i = 0; i < s->records - 1; i++) {
        uint8_t *r = s->book + i * 6;
        if (r[0] == PART && (r[4] | r[5]) != 0) {
            write_record(s->book + (s->records - 1) * 6, APART, r[2] | r[3] << 8, r[4] | r[5] << 8);
            return;
        }
    }
}

#endif
