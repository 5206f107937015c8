/* The peak stack of each call on the deepest books, as a table in Markdown: the smallest stack of a thread on which the call comes to its end, found by halving. Each try is a process of
   its own, since one that is too small ends it. What a thread needs for a call that does nothing is taken off. */
#define _DEFAULT_SOURCE
#include "books.h"
#include "../include/piecebook.h"

#include <pthread.h>
#include <stdio.h>
#include <stdlib.h>
#include <sys/mman.h>
#include <sys/resource.h>
#include <sys/wait.h>
#include <unistd.h>

enum { PAGE = 4096, MOST = 16 << 20, PIECES = 2048, RECORDS = 8192 };

static piecebook_workspace workspace;
static sample s;
static uint8_t parentheses[PIECEBOOK_PARENTHESES], marks[PIECEBOOK_MARKS], answers[4096], out[8192 * 6], log_bytes[2 * 32768], counts[2 * 32768];
static uint8_t area[PIECEBOOK_AREA], steps[PIECEBOOK_STEP_BYTES], page[RECORDS * PIECEBOOK_SHOWN_BYTES], read_bytes[PIECEBOOK_RECORD_BYTES];
static uint16_t shadows[PIECEBOOK_SHADOWS], places[PIECEBOOK_PLACES], list[PIECEBOOK_LIST], areas[3][PIECEBOOK_PAIRS];
static piecebook_working state = {RECORDS, PIECES};
/* A restricted claim, for which the cutting sheets are settled too. */
static const uint8_t claim[6] = {PART, 1, 2046 & 255, 2046 >> 8, 1, 0};

#define BOOK s.book, s.records * 6
#define PARTS parentheses, sizeof parentheses, marks, sizeof marks, shadows, PIECEBOOK_SHADOWS, places, PIECEBOOK_PLACES
#define LISTS list, PIECEBOOK_LIST, areas[0], PIECEBOOK_PAIRS, areas[1], PIECEBOOK_PAIRS, areas[2], PIECEBOOK_PAIRS
#define CALL_AS(name, call, ...)                                                                                                                           \
    static void *name(void *unused)                                                                                                                        \
    {                                                                                                                                                      \
        piecebook_##call(&workspace, __VA_ARGS__);                                                                                                         \
        return unused;                                                                                                                                     \
    }
#define CALL(name, ...) CALL_AS(name, name, __VA_ARGS__)

CALL(answer, BOOK, s.asked, s.claims * 6, PARTS, answers, sizeof answers)
CALL_AS(index_alone, index, BOOK, PARTS)
CALL(grid, BOOK)
CALL_AS(add_last, add, &(piecebook_working){RECORDS - 1, PIECES}, area, sizeof area, s.book + 6 * (RECORDS - 1), 6)
CALL(withdraw, &state, area, sizeof area, 0)
CALL(ask, &state, area, sizeof area, claim, 6)
CALL(convert, BOOK, out, sizeof out)
CALL(catalog, BOOK, APART, 2000, PARTS, LISTS)
CALL(replicates, BOOK, (piecebook_window){{0}, 0}, log_bytes, sizeof log_bytes, counts, sizeof counts)
CALL(compare, BOOK, BOOK, s.asked, s.claims * 6, out, sizeof out)
CALL(chain, BOOK, claim, sizeof claim, steps, sizeof steps)
CALL(chain_check, BOOK, claim, sizeof claim, steps, sizeof steps)
CALL(clash, BOOK, steps, sizeof steps)
CALL(clash_check, BOOK, steps, sizeof steps)

static void *show(void *unused)
{
    piecebook_show(BOOK, page, sizeof page);
    return unused;
}

static void *read_text(void *unused)
{
    piecebook_read_text(PIECEBOOK_RECORDS, page, sizeof page, read_bytes, sizeof read_bytes);
    return unused;
}

static void *nothing(void *unused)
{
    return unused;
}

/* In the new process: runs f on a stack of the given size, below which no page can be touched. */
static void on_stack(void *f(void *), size_t size)
{
    struct rlimit none = {0, 0};
    setrlimit(RLIMIT_CORE, &none);
    size_t guard = MOST;
    char *room = mmap(NULL, guard + size, PROT_NONE, MAP_PRIVATE | MAP_ANONYMOUS | MAP_NORESERVE, -1, 0);
    if (room == MAP_FAILED || mprotect(room + guard, size, PROT_READ | PROT_WRITE) != 0)
        _exit(2);
    pthread_attr_t attributes;
    pthread_t thread;
    pthread_attr_init(&attributes);
    if (pthread_attr_setstack(&attributes, room + guard, size) != 0 || pthread_create(&thread, &attributes, f, NULL) != 0)
        _exit(2);
    pthread_join(thread, NULL);
    _exit(0);
}

static int enough(void *f(void *), size_t size)
{
    pid_t child = fork();
    if (child == 0)
        on_stack(f, size);
    int status;
    if (child < 0 || waitpid(child, &status, 0) < 0 || (WIFEXITED(status) && WEXITSTATUS(status) == 2)) {
        printf("stack: no process or thread to try on\n");
        exit(1);
    }
    return WIFEXITED(status);
}

/* In bytes; the smallest stack that a thread may have is 16 KiB. */
static size_t smallest(void *f(void *))
{
    size_t small = 4 * PAGE, large = MOST;
    if (enough(f, small))
        return small;
    if (!enough(f, large)) {
        printf("stack: more than %d KiB\n", MOST >> 10);
        exit(1);
    }
    while (large - small > PAGE) {
        size_t middle = small + (large - small) / 2 / PAGE * PAGE;
        if (enough(f, middle))
            large = middle;
        else
            small = middle;
    }
    return large;
}

/* A book of a shape in any order, with every second claim restricted, and a chain to check, behind a claim or behind 14. */
static void make(enum shape shape, int clashing)
{
    make_sample(&s, shape, PIECES, RECORDS, 4096);
    if (clashing)
        contradict_late(&s);
    else
        shuffle(&s);
    restrict_half(&s);
    memcpy(area, s.book, sizeof area);
    piecebook_chain(&workspace, BOOK, claim, sizeof claim, steps, sizeof steps);
    piecebook_clash(&workspace, BOOK, steps, sizeof steps);
    memset(page, '\n', sizeof page);
    piecebook_show(BOOK, page, sizeof page);
}

int main(void)
{
    static const struct {
        const char *name;
        enum shape shape;
        int clashing;
    } books[] = {{"line", DEEP, 0}, {"ladder", LADDER, 0}, {"line in the worst order", WORST, 0}, {"circles of two", COUPLES, 0}, {"one circle", ROUND, 0},
                 {"line, refused by 14", DEEP, 1}};
    static const struct {
        const char *name;
        void *(*call)(void *);
    } calls[] = {{"answer", answer},   {"index", index_alone},           {"grid", grid},       {"add", add_last},   {"withdraw", withdraw}, {"ask", ask},
                 {"convert", convert}, {"catalog", catalog},       {"replicates", replicates}, {"compare", compare}, {"chain", chain},       {"chain_check", chain_check},
                 {"clash", clash},     {"clash_check", clash_check}, {"show", show}, {"read_text", read_text}};
    enum { BOOKS = sizeof books / sizeof *books, CALLS = sizeof calls / sizeof *calls };
    static size_t kib[CALLS][BOOKS];
    size_t least = smallest(nothing);
    for (unsigned b = 0; b < BOOKS; b++) {
        make(books[b].shape, books[b].clashing);
        for (unsigned c = 0; c < CALLS; c++)
            kib[c][b] = (smallest(calls[c].call) - least) >> 10;
    }
    printf("| stack, KiB |");
    for (unsigned b = 0; b < BOOKS; b++)
        printf(" %s |", books[b].name);
    printf("\n|---|");
    for (unsigned b = 0; b < BOOKS; b++)
        printf("---|");
    for (unsigned c = 0; c < CALLS; c++) {
        printf("\n| %s |", calls[c].name);
        for (unsigned b = 0; b < BOOKS; b++)
            printf(" %zu |", kib[c][b]);
    }
    printf("\n");
    return 0;
}
