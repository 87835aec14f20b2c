/* Threads that count in cells under one lock desk, in C: what a program with threads does with the data (docs/LIBRARY.md has the rules).

       cc -O2 -pthread -Iinclude library/count.c target/staticlib/libtuyenlomac.a -o target/count
       target/count

   Each job counts in two of four cells: it reads each of the two, and writes it one larger. It also counts once in a fifth cell, by an increment.
   A job that is sent back takes back what it did, and tries again. Every fifth job gives up at its end. At the end the four cells hold 2 for each
   job that committed, and the fifth holds 1; otherwise the status is 1. */
#define _POSIX_C_SOURCE 200809L
#include <pthread.h>
#include <sched.h>
#include <stdatomic.h>
#include <stdio.h>
#include <stdlib.h>

#include "tuyenlomac.h"

enum { THREADS = 8, JOBS = 2000, COUNTED = 4, TALLY = COUNTED };

static pthread_mutex_t mutex = PTHREAD_MUTEX_INITIALIZER; /* around the desk */
static pthread_cond_t woken = PTHREAD_COND_INITIALIZER;
static struct tuyenlomac_locks desk;

/* What the cells hold. For the first four the desk's locks are enough: only one job at a time writes. An increment lock is shared, so the fifth
   is incremented by one atomic operation. */
static uint64_t held[COUNTED];
static atomic_ullong tally;

static atomic_ullong committed, undone; /* jobs that committed, and writes and increments that were taken back */

/* A job, and what it would have to take back: the cells that it wrote, with their old values, and whether it incremented the fifth. */
struct job {
    uint32_t number;
    size_t writes;
    uint32_t cell[2];
    uint64_t before[2];
    int tallied;
};

/* Takes back what a job did, the last first; the increment by the opposite one. */
static void take_back(struct job *job) {
    undone += job->writes + (size_t)job->tallied;
    if (job->tallied)
        tally--;
    job->tallied = 0;
    for (; job->writes > 0; job->writes--)
        held[job->cell[job->writes - 1]] = job->before[job->writes - 1];
}

/* Whether a job waits, as the desk has it. */
static int waits(uint32_t job) {
    for (int place = 0; place < TUYENLOMAC_PLACES; place++)
        if (desk.number[place] == job)
            return desk.status[place] == 2;
    return 0;
}

/* One request of a job. If the job has to wait, it waits here. Returns 1 if it goes on; 0 if it was sent back, and what it did is taken back. */
static int ask(struct job *job, uint8_t kind, uint32_t cell) {
    struct tuyenlomac_wakes wakes = {0};
    pthread_mutex_lock(&mutex);
    struct tuyenlomac_answer said = tuyenlomac_locks_step(&desk, kind, job->number, cell, &wakes);
    if (said.word == TUYENLOMAC_NO) {
        fprintf(stderr, "count: refusal %u\n", (unsigned)said.number);
        exit(1);
    }
    if (said.word == TUYENLOMAC_BACK)
        take_back(job); /* first, since its locks are free already; */
    if (said.wakes > 0)
        pthread_cond_broadcast(&woken); /* then the woken jobs are told, and look at the desk; */
    while (said.word == TUYENLOMAC_WAIT && waits(job->number))
        pthread_cond_wait(&woken, &mutex);
    pthread_mutex_unlock(&mutex); /* and then the mutex is freed. */
    job->number = said.number;    /* for a begin the new one, otherwise unchanged */
    return said.word != TUYENLOMAC_BACK;
}

/* Reads a cell and writes it one larger. Neither needs the mutex: the job has been granted the cell. */
static int count(struct job *job, uint32_t cell) {
    if (!ask(job, TUYENLOMAC_READ, cell))
        return 0;
    uint64_t found = held[cell];
    sched_yield(); /* so that the threads collide here */
    if (!ask(job, TUYENLOMAC_WRITE, cell))
        return 0;
    job->cell[job->writes] = cell;
    job->before[job->writes++] = found;
    held[cell] = found + 1;
    return 1;
}

/* Increments the fifth cell. */
static int increment(struct job *job) {
    if (!ask(job, TUYENLOMAC_INCREMENT, TALLY))
        return 0;
    job->tallied = 1;
    tally++;
    return 1;
}

static void *run(void *which) {
    uint32_t thread = *(uint32_t *)which;
    for (uint32_t n = 0; n < JOBS; n++) {
        struct job job = {0};
        ask(&job, TUYENLOMAC_BEGIN, 0);
        while (!(increment(&job) && count(&job, n % COUNTED) && count(&job, (n + thread) % COUNTED))) {
            sched_yield();
            ask(&job, TUYENLOMAC_RETRY, 0); /* under its own number: so it becomes the oldest in the end, and is not sent back any more */
        }
        if (n % 5 == 4) {
            take_back(&job); /* before the give-up, while it still has its locks */
            ask(&job, TUYENLOMAC_GIVE_UP, 0);
        } else {
            ask(&job, TUYENLOMAC_COMMIT, 0);
            committed++;
        }
    }
    return NULL;
}

int main(void) {
    pthread_t threads[THREADS];
    uint32_t which[THREADS];
    unsigned long long sum = 0;
    tuyenlomac_locks_start(&desk, 1); /* only 0 is refused */
    for (uint32_t i = 0; i < THREADS; i++) {
        which[i] = i;
        if (pthread_create(&threads[i], NULL, run, &which[i]) != 0)
            return 1;
    }
    for (int i = 0; i < THREADS; i++)
        pthread_join(threads[i], NULL);
    for (int cell = 0; cell < COUNTED; cell++)
        sum += held[cell];
    printf("%llu jobs committed, %llu acts were taken back: the cells hold %llu, and by increments %llu\n", committed, undone, sum, tally);
    return sum == 2 * committed && tally == committed ? 0 : 1;
}
