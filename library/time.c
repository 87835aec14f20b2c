/* How long a step takes through the library: the random steps of crates/time_desk, on either desk, with no input or output meanwhile.
   time [RUNS [STEPS]] prints for each desk the nanoseconds of a step, in the best of RUNS runs (9) of STEPS steps (1000000) each.

       cc -O2 -Iinclude library/time.c target/staticlib/libtuyenlomac.a -o target/time && target/time

   Under an emulator these times say nothing. */
#define _POSIX_C_SOURCE 200809L /* for clock_gettime */
#include <stdio.h>
#include <stdlib.h>
#include <string.h>
#include <time.h>

#include "mix.h"

static double now(void) {
    struct timespec t;
    clock_gettime(CLOCK_MONOTONIC, &t);
    return (double)t.tv_sec * 1e9 + (double)t.tv_nsec;
}

/* The nanoseconds of a run on the lock desk. */
static double time_locks(long steps) {
    static struct tuyenlomac_locks desk;
    static struct tuyenlomac_wakes wakes;
    static struct mix m;
    memset(&m, 0, sizeof m);
    m.x = 1;
    tuyenlomac_locks_start(&desk, 1);
    double began = now();
    for (long i = 0; i < steps; i++) {
        mix_draw(&m);
        mix_answered(&m, tuyenlomac_locks_step(&desk, m.kind, m.job, m.cell, &wakes), 1);
    }
    return now() - began;
}

/* The nanoseconds of a run on the timestamp desk. */
static double time_stamps(long steps) {
    static struct tuyenlomac_stamps desk;
    static struct mix m;
    memset(&m, 0, sizeof m);
    m.x = 1;
    tuyenlomac_stamps_start(&desk, 1);
    double began = now();
    for (long i = 0; i < steps; i++) {
        mix_draw(&m);
        mix_answered(&m, tuyenlomac_stamps_step(&desk, m.kind, m.job, m.cell), 0);
    }
    return now() - began;
}

static void put_best(const char *name, double (*run)(long steps), long runs, long steps) {
    double best = run(steps);
    for (long i = 1; i < runs; i++) {
        double took = run(steps);
        if (took < best)
            best = took;
    }
    printf("%s %.1f\n", name, best / (double)steps);
}

int main(int argc, char **argv) {
    long runs = argc > 1 ? atol(argv[1]) : 9;
    long steps = argc > 2 ? atol(argv[2]) : 1000000;
    if (runs < 1 || steps < 1) {
        fputs("usage: time [RUNS [STEPS]]\n", stderr);
        return 2;
    }
    put_best("locks", time_locks, runs, steps);
    put_best("stamps", time_stamps, runs, steps);
    return 0;
}
