/* mix.h: the random steps of crates/time_desk, for try.c and time.c. Twenty-four hands have one job each. Every step draws three random numbers,
   for the hand, the kind and the cell, whatever the desk has answered. */
#ifndef MIX_H
#define MIX_H

#include "tuyenlomac.h"

enum { HANDS = 24 };

struct mix {
    uint32_t x;           /* the state of the random sequence */
    uint32_t jobs[HANDS]; /* the job of each hand, 0 if it has none */
    uint8_t backs[HANDS]; /* 1 if it was sent back and is to retry */
    uint32_t hand;        /* the step that was drawn last: its hand, job, cell and kind */
    uint32_t job;
    uint32_t cell;
    uint8_t kind;
    uint64_t tally[5]; /* how many steps went, waited, were sent back and were refused, and how many jobs woke */
};

/* The next random number below a limit. */
static inline uint32_t mix_next(struct mix *m, uint32_t limit) {
    uint32_t drawn = (m->x >> 16) % limit;
    m->x = m->x * 1103515245u + 12345u;
    return drawn;
}

/* The next step. A hand without a job begins one; a hand whose job was sent back retries; of 32 other steps 15 read, 6 write, 4 increment, 5 commit,
   1 gives up and 1 retries. */
static inline void mix_draw(struct mix *m) {
    static const char kinds[] = "rrrrrrrrrrrrrrrwwwwwwiiiicccccat";
    m->hand = mix_next(m, HANDS);
    m->kind = (uint8_t)kinds[mix_next(m, 32)];
    m->job = m->jobs[m->hand];
    if (m->job == 0)
        m->kind = TUYENLOMAC_BEGIN;
    else if (m->backs[m->hand])
        m->kind = TUYENLOMAC_RETRY;
    m->cell = mix_next(m, TUYENLOMAC_CELLS);
}

/* The step was answered. If the job was sent back, the hand retries if the desk keeps the job, and has no job if it is closed. */
static inline void mix_answered(struct mix *m, struct tuyenlomac_answer said, int kept) {
    uint32_t job = m->job;
    if (said.word == TUYENLOMAC_GO)
        job = m->kind == TUYENLOMAC_COMMIT || m->kind == TUYENLOMAC_GIVE_UP ? 0 : said.number;
    if (said.word == TUYENLOMAC_BACK && !kept)
        job = 0;
    m->jobs[m->hand] = job;
    m->backs[m->hand] = said.word == TUYENLOMAC_BACK && kept;
    m->tally[said.word]++;
    m->tally[4] += said.wakes;
}

#endif
