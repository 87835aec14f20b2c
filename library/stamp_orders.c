/* The outcome of the two orders in which a caller of the timestamp desk can act (a) and free the mutex (f) after GO.

       stamp_orders af

   prints what a job finds in a cell that a later job then writes: 0, since in the desk's order it reads before that write. With f first it finds 1,
   against the desk's history, and the status is 1: at that desk nothing is held between GO and the act, so the act belongs inside the mutex.

   Two threads take turns at a barrier, so each order has the same outcome in every run. The first thread's job reads, and the thread does the two
   things in turn; after each of them the other thread's job asks and writes as soon as the mutex is free. */
#define _POSIX_C_SOURCE 200809L
#include <pthread.h>
#include <stdio.h>
#include <stdlib.h>
#include <string.h>

#include "tuyenlomac.h"

enum { READER = 1, WRITER = 2, CELL = 5 }; /* the jobs, by their numbers, and the cell */

static pthread_mutex_t mutex = PTHREAD_MUTEX_INITIALIZER; /* around the desk, and around what the cell holds */
static pthread_barrier_t turn;
static struct tuyenlomac_stamps desk;
static int held; /* what the cell holds */

/* One request, which must go. */
static void ask(uint8_t kind, uint32_t job) {
    if (tuyenlomac_stamps_step(&desk, kind, job, CELL).word != TUYENLOMAC_GO) {
        fputs("stamp_orders: the desk answers otherwise\n", stderr);
        exit(2);
    }
}

/* The other thread: it writes once, in the first turn in which it can. */
static void *other(void *unused) {
    for (int i = 0, done = 0; i < 2; i++) {
        pthread_barrier_wait(&turn); /* the first thread has done one of its two things, and waits */
        if (!done && pthread_mutex_trylock(&mutex) == 0) {
            ask(TUYENLOMAC_WRITE, WRITER);
            held = 1; /* the act, inside the mutex */
            pthread_mutex_unlock(&mutex);
            done = 1;
        }
        pthread_barrier_wait(&turn);
    }
    return unused;
}

/* The first thread: returns what its job finds in the cell. */
static int run(const char *order) {
    int found = -1;
    pthread_mutex_lock(&mutex);
    ask(TUYENLOMAC_READ, READER);
    for (int i = 0; i < 2; i++) {
        if (order[i] == 'a')
            found = held;
        else
            pthread_mutex_unlock(&mutex);
        pthread_barrier_wait(&turn);
        pthread_barrier_wait(&turn); /* the other thread has done what it may */
    }
    return found;
}

int main(int argc, char **argv) {
    pthread_t thread;
    if (argc != 2 || (strcmp(argv[1], "af") != 0 && strcmp(argv[1], "fa") != 0)) {
        fputs("usage: stamp_orders af|fa\n", stderr);
        return 2;
    }
    tuyenlomac_stamps_start(&desk, 1);
    ask(TUYENLOMAC_BEGIN, 0);
    ask(TUYENLOMAC_BEGIN, 0);
    if (pthread_barrier_init(&turn, NULL, 2) != 0 || pthread_create(&thread, NULL, other, NULL) != 0)
        return 2;
    int found = run(argv[1]);
    pthread_join(thread, NULL);
    printf("%s %d\n", argv[1], found);
    return found == 0 ? 0 : 1;
}
