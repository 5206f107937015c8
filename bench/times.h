/* The processor's time in microseconds, and medians of pairs that take turns, so that whatever else the machine does falls on both. Define _POSIX_C_SOURCE before the first include. */
#ifndef TIMES_H
#define TIMES_H

#include <stdlib.h>
#include <time.h>

static double now(void)
{
    struct timespec t;
    clock_gettime(CLOCK_PROCESS_CPUTIME_ID, &t);
    return t.tv_sec * 1e6 + t.tv_nsec / 1e3;
}

static int rising(const void *x, const void *y)
{
    double a = *(const double *)x, b = *(const double *)y;
    return (a > b) - (a < b);
}

static double median(double *times, unsigned runs)
{
    qsort(times, runs, sizeof *times, rising);
    return times[runs / 2];
}

typedef struct {
    double first, ratio;
} pair;

/* The median time of f, and that of the ratios of f to g, each called so many times over; `before`, where there is one, is run before each with its number, 0 or 1, and not measured. */
static pair __attribute__((unused)) medians(void f(void), void g(void), void before(unsigned), unsigned runs, unsigned calls)
{
    double times[256], ratios[256];
    for (unsigned i = 0; i < runs; i++) {
        double taken[2];
        for (unsigned which = 0; which < 2; which++) {
            if (before != NULL)
                before(which);
            double start = now();
            for (unsigned j = 0; j < calls; j++)
                (which == 0 ? f : g)();
            taken[which] = (now() - start) / calls;
        }
        times[i] = taken[0], ratios[i] = taken[0] / taken[1];
    }
    return (pair){median(times, runs), median(ratios, runs)};
}

#endif
