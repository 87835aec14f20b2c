/* The outcome of each order in which a caller can do the three things that follow BACK: take back (b), tell the woken jobs (t), free the mutex (f).

       orders btf
       orders batf

   prints what two cells hold at the end. In each of them one committed job has counted once. With an a, the job gives up at that point, instead of
   being sent back. With b before t and f each cell holds 1. In all other orders one of them or both hold 0, and the status is 1: the job has put
   its old values over what another job had written meanwhile.

   Two threads take turns at a barrier, so each order has the same outcome in every run. The first thread's job is sent back or gives up, and the
   thread does the three things in turn. After each of them the other thread does all that it may by then: a job that waited goes on as soon as it
   is told, and a new job asks as soon as the mutex is free. */
#define _POSIX_C_SOURCE 200809L
#include <pthread.h>
#include <stdio.h>
#include <stdlib.h>
#include <string.h>

#include "tuyenlomac.h"

enum { WAITER = 1, UNDONE = 2, ASKER = 3 };   /* the jobs, by their numbers */
enum { WAITED_FOR = 0, ASKED = 1, KEPT = 2 }; /* the cells: the job UNDONE has counted in the first two */

static pthread_mutex_t mutex = PTHREAD_MUTEX_INITIALIZER; /* around the desk */
static pthread_barrier_t turn;
static struct tuyenlomac_locks desk;
static struct tuyenlomac_wakes wakes;
static uint64_t held[2]; /* what the first two cells hold */
static int told;         /* whether the waiting job has been told of its wake */

/* One request, which must get this answer. */
static struct tuyenlomac_answer ask(uint8_t kind, uint32_t job, uint32_t cell, uint32_t word) {
    struct tuyenlomac_answer said = tuyenlomac_locks_step(&desk, kind, job, cell, &wakes);
    if (said.word != word) {
        fprintf(stderr, "orders: the desk answers otherwise\n");
        exit(2);
    }
    return said;
}

/* The other thread: in each turn it does what it may by then, each thing once. */
static void *other(void *order) {
    int told_done = 0, asked_done = 0;
    for (size_t i = 0; i < strlen((const char *)order); i++) {
        pthread_barrier_wait(&turn); /* the first thread has done one of its things, and waits */
        if (told && !told_done) {    /* its job has been granted the cell, and needs no mutex to count */
            held[WAITED_FOR]++;
            told_done = 1;
        }
        if (!asked_done && pthread_mutex_trylock(&mutex) == 0) {
            ask(TUYENLOMAC_BEGIN, 0, 0, TUYENLOMAC_GO);
            ask(TUYENLOMAC_WRITE, ASKER, ASKED, TUYENLOMAC_GO);
            held[ASKED]++;
            pthread_mutex_unlock(&mutex);
            asked_done = 1;
        }
        pthread_barrier_wait(&turn);
    }
    ask(TUYENLOMAC_COMMIT, WAITER, 0, TUYENLOMAC_GO);
    ask(TUYENLOMAC_COMMIT, ASKER, 0, TUYENLOMAC_GO);
    return NULL;
}

/* Two jobs: the younger counts in two cells, and the older waits for the first of these. */
static void prepare(void) {
    tuyenlomac_locks_start(&desk, 1);
    ask(TUYENLOMAC_BEGIN, 0, 0, TUYENLOMAC_GO);
    ask(TUYENLOMAC_BEGIN, 0, 0, TUYENLOMAC_GO);
    ask(TUYENLOMAC_WRITE, WAITER, KEPT, TUYENLOMAC_GO);
    ask(TUYENLOMAC_WRITE, UNDONE, WAITED_FOR, TUYENLOMAC_GO);
    ask(TUYENLOMAC_WRITE, UNDONE, ASKED, TUYENLOMAC_GO);
    held[WAITED_FOR] = held[ASKED] = 1; /* they held 0 before */
    ask(TUYENLOMAC_WRITE, WAITER, WAITED_FOR, TUYENLOMAC_WAIT);
}

/* The first thread: its job asks for what the older one holds and is sent back, or gives up where the order says so; the other things follow. */
static void run(const char *order) {
    struct tuyenlomac_answer said = {0, 0, 0};
    pthread_mutex_lock(&mutex);
    if (strchr(order, 'a') == NULL)
        said = ask(TUYENLOMAC_WRITE, UNDONE, KEPT, TUYENLOMAC_BACK);
    for (size_t i = 0; i < strlen(order); i++) {
        if (order[i] == 'a')
            said = ask(TUYENLOMAC_GIVE_UP, UNDONE, 0, TUYENLOMAC_GO);
        if (order[i] == 'b')
            held[WAITED_FOR] = held[ASKED] = 0; /* as it found them */
        if (order[i] == 't')
            told = said.wakes == 1 && wakes.job[0] == WAITER;
        if (order[i] == 'f')
            pthread_mutex_unlock(&mutex);
        pthread_barrier_wait(&turn);
        pthread_barrier_wait(&turn); /* the other thread has done what it may */
    }
}

/* Whether the order has each of b, t and f once, and nothing else but one a before t and f. */
static int is_order(const char *order) {
    int all = strchr(order, 'b') != NULL && strchr(order, 't') != NULL && strchr(order, 'f') != NULL;
    int early = order[0] == 'a' || (order[0] == 'b' && order[1] == 'a');
    return all && (strlen(order) == 3 || (strlen(order) == 4 && early));
}

int main(int argc, char **argv) {
    pthread_t thread;
    if (argc != 2 || !is_order(argv[1])) {
        fputs("usage: orders btf, or the three letters in another order, or with an a before t and f\n", stderr);
        return 2;
    }
    prepare();
    if (pthread_barrier_init(&turn, NULL, 2) != 0 || pthread_create(&thread, NULL, other, argv[1]) != 0)
        return 2;
    run(argv[1]);
    pthread_join(thread, NULL);
    printf("%s %d %d\n", argv[1], (int)held[WAITED_FOR], (int)held[ASKED]);
    return held[WAITED_FOR] == 1 && held[ASKED] == 1 ? 0 : 1;
}
