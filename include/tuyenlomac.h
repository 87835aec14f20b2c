/* tuyenlomac.h: the lock desk, the timestamp desk, the judge, and their lines, for programs in C (from C11 on) and C++ (from C++11 on).

   A job is a transaction: it begins, reads, writes and increments cells, and commits or gives up (aborts). The lock desk (strict two-phase locking
   with wait-die) lets it go on, lets it wait, or sends it back (aborts it): then its locks are free, and it may retry under its own number. A job
   is open while it is running, waiting or sent back; at the timestamp desk, while it is running. At most 32 jobs are open at once. There are 64
   cells, 0 to 63. The desks decide which job goes on. The caller keeps what the cells hold, and undoes (takes back) what a job has done when the
   job gives up or is sent back. "What a caller does with the data", below, says when: a program with threads that does it later loses updates.

   Link libtuyenlomac.a, which is for x86-64 Linux. docs/LIBRARY.md says how it is built, what is proved of it, and where the proof ends.
   No function here allocates, does input or output, takes a lock, or keeps anything between calls. A function fails only by what it returns, and
   every call ends. Only the stack has to be large enough: some 450 KiB for the judge, less than 8 KiB for every other call.

   A caller keeps these rules in every call:
   - A pointer is not null, is aligned for its type, and points to as many initialised objects as its array has or as the length beside it says.
     This holds for a desk that is about to be started too: make it static, or initialise it by = {0}. If the length beside a pointer is 0, the
     pointer may be null (an empty std::vector gives NULL with 0), and nothing is read or written through it.
   - Two objects that are lent in one call do not overlap if one of them may be written.
   - One caller at a time: while a call runs, nobody else reads or writes what is lent to be written, or writes what is lent to be read. So steps
     of one desk exclude each other and exclude its chains; chains may run together.
     A program with threads holds a mutex of its own around each step, and around what has to follow the step at once (below).
   Breaking one of these rules is undefined behaviour: no answer says so, and nothing is promised any more. This was observed, and may differ
   elsewhere: a null desk faults (a null pointer for the wakes only in a step that wakes a job); a list that is lent twice silently holds what was
   written last, the cells of the wakes in place of their jobs.
   Numbers may have any value, apart from a length, which must be true. For any kind, job, cell, first number, text, line or
   place a call answers as described here.

   A desk is a struct that the caller owns. tuyenlomac_locks_start or tuyenlomac_stamps_start initialises it, and from then on only the step
   changes it: the promises of docs/PROMISES.md hold for such a desk. A copy of it is a second desk that knows nothing of the first: each may
   grant the same cell. A desk that was not started, or whose fields were written by the program, is safe to step: every call on it still ends and
   writes only what is lent to it; but nothing is promised about its answers. A struct of zeros is such a desk. It answers as if it had been
   started: its first begin gives GO with the number 0, which is never open, and the next one gives 1. So check what start returns. A program may
   read the fields of its desk, under the mutex.

   What a caller does with the data, at the lock desk. A job that is sent back has lost its locks, and others may have been granted its cells,
   before its caller sees BACK. To tell a woken job is to set, under the mutex, the flag that its thread tests, and to signal. So
   - after BACK: undo what the job did before you tell any woken job and before you free the mutex, which stays locked from before the step;
   - before a give-up (abort): first undo what the job did, then make the call;
   - after a commit or a give-up: set the flags of the woken jobs before you free the mutex; you may signal after that;
   - an increment is one atomic operation on the cell's data, since several jobs may hold increment locks on one cell at once; undo it by the
     opposite increment, not by restoring the old value.
   Instead of the first two: keep the job's changes aside and apply them once all its requests are granted, before its commit; then there is
   nothing to undo. From the GO or the wake for a cell until the job ends, the job may do to that cell what it was granted (read, write, or
   increment atomically) without the mutex. A wake grants the cell: the job does not ask again. library/count.c is a program with
   threads that does all this.

   The timestamp desk (timestamp ordering) holds no locks. A GO is valid only until the mutex is freed: read or change the cell before that, and
   never later (at commit, say). Undo a job's writes before the mutex is freed too: after BACK, or with the give-up. By then other jobs may
   have written over them: so keep the writes and increments of a cell in order, each with its job, and undo by removing those of the job. Other
   jobs may also have read them, and may commit: the judge calls that dirty, and the timestamp desk does not prevent it. docs/LIBRARY.md says
   more. */
#ifndef TUYENLOMAC_H
#define TUYENLOMAC_H

#include <stddef.h>
#include <stdint.h>

#ifdef __cplusplus
extern "C" {
#define TUYENLOMAC_ASSERT(what) static_assert(what, #what)
#else
#define TUYENLOMAC_ASSERT(what) _Static_assert(what, #what)
#endif

/* ---- Limits, letters, words and refusals */

enum {
    TUYENLOMAC_PLACES = 32, /* the most jobs that may be open at once; a chain has at most 32 jobs, and a step at most 31 wakes */
    TUYENLOMAC_CELLS = 64,  /* cells are 0 to 63 */
    TUYENLOMAC_ORDER = 255, /* places of an order buffer for the judge; fewer are refused */
    TUYENLOMAC_RECORD = 24  /* no record of an answer, or of a BAD_LINE, to a request of line 1 to 1,000,000 is longer */
};

/* The kind of a request is its letter. */
enum {
    TUYENLOMAC_BEGIN = 'b',
    TUYENLOMAC_COMMIT = 'c',
    TUYENLOMAC_GIVE_UP = 'a',
    TUYENLOMAC_RETRY = 't',     /* a job that was sent back runs again under its number, with no locks */
    TUYENLOMAC_READ = 'r',
    TUYENLOMAC_WRITE = 'w',
    TUYENLOMAC_INCREMENT = 'i',
    TUYENLOMAC_UPDATE = 'u',    /* read with intent to write */
    TUYENLOMAC_SENT_BACK = 'k'  /* only in histories; as a request it gets UNKNOWN_KIND */
};

/* The word of an answer, and of an answer record. */
enum tuyenlomac_word {
    TUYENLOMAC_GO = 0,   /* the request is done, or granted */
    TUYENLOMAC_WAIT = 1, /* the job waits; a wake says when it may go on */
    TUYENLOMAC_BACK = 2, /* the job was sent back */
    TUYENLOMAC_NO = 3,   /* nothing was done */
    TUYENLOMAC_WAKE = 4  /* only in records: a job that waited was granted its cell */
};

/* The word of a verdict. */
enum tuyenlomac_verdict {
    TUYENLOMAC_ORDERLY = 0, /* there is a serial order (conflict-serializable), and no dirty read */
    TUYENLOMAC_KNOT = 1,    /* there is a cycle of conflicts, in the precedence graph */
    TUYENLOMAC_REFUSED = 2, /* the history is not judged */
    TUYENLOMAC_DIRTY = 3    /* a committed run read from a run that had not ended then and never commits */
};

enum tuyenlomac_refusal {
    TUYENLOMAC_UNKNOWN_KIND = 1,    /* not a letter of requests; or, for a record, an unknown letter or word */
    TUYENLOMAC_CELL_ABOVE = 2,      /* a cell above 63 */
    TUYENLOMAC_NOT_OPEN = 3,        /* the job is not open; 0 never is */
    TUYENLOMAC_WAITING = 4,         /* the job waits, and the request is not a give-up */
    TUYENLOMAC_WAS_SENT_BACK = 5,   /* the job was sent back, and the request is neither a retry nor a give-up; or its chain is asked for */
    TUYENLOMAC_ALL_OPEN = 6,        /* begin while 32 jobs are open */
    TUYENLOMAC_NO_NUMBER_LEFT = 7,  /* begin after 4,294,967,295 was given */
    TUYENLOMAC_RUNNING = 8,         /* retry of a running job */
    TUYENLOMAC_BAD_LINE = 9,        /* with the field at fault: 1 letter, 2 job, 3 cell, 4 what follows the last field */
    TUYENLOMAC_STARTED_AT_ZERO = 10,
    TUYENLOMAC_TOO_MANY_LINES = 11, /* a history has a line 4,097 */
    TUYENLOMAC_JOB_OUTSIDE = 12,    /* a history has a job outside 1 to 255 */
    TUYENLOMAC_ENDED = 13,          /* a history has a line for a job that has committed or given up */
    TUYENLOMAC_SHORT_ORDER = 14,    /* an order buffer of fewer than 255 places */
    TUYENLOMAC_NO_ROOM = 15,        /* the record does not fit from the place given */
    TUYENLOMAC_SHORT_LIST = 18,     /* a list of fewer than 32 places for a chain */
    TUYENLOMAC_NO_RETRY = 19        /* retry of an open job at the timestamp desk */
};

/* ---- What the caller lends, and what the functions return */

/* A lock desk: 32 places, of which each open job has one. A program may read it under the mutex; only start and step write it. */
struct tuyenlomac_locks {
    uint64_t next;       /* the number of the next begin */
    uint32_t number[32]; /* for each place, its job; 0 if the place is free */
    uint8_t status[32];  /* 0 free, 1 running, 2 waiting, 3 sent back */
    uint8_t cell[32];    /* the cell that a waiting job waits for */
    uint8_t ask[32];     /* what that job asked for: 0 read, 1 write, 2 increment, 3 read with intent to write */
    uint8_t held[2048];  /* held[32 * cell + place], the lock: 0 none, 1 shared, 2 exclusive, 3 increment, 4 update */
};
TUYENLOMAC_ASSERT(sizeof(struct tuyenlomac_locks) == 2280);
TUYENLOMAC_ASSERT(offsetof(struct tuyenlomac_locks, next) == 0);
TUYENLOMAC_ASSERT(offsetof(struct tuyenlomac_locks, number) == 8);
TUYENLOMAC_ASSERT(offsetof(struct tuyenlomac_locks, status) == 136);
TUYENLOMAC_ASSERT(offsetof(struct tuyenlomac_locks, cell) == 168);
TUYENLOMAC_ASSERT(offsetof(struct tuyenlomac_locks, ask) == 200);
TUYENLOMAC_ASSERT(offsetof(struct tuyenlomac_locks, held) == 232);

/* A timestamp desk, likewise with 32 places. */
struct tuyenlomac_stamps {
    uint64_t next;       /* the number of the next begin */
    uint32_t number[32]; /* for each place, its job; 0 if the place is free */
    uint32_t reader[64]; /* for each cell, the largest job number that has read it; 0 at first */
    uint32_t writer[64]; /* for each cell, the largest job number that has written it; 0 at first */
};
TUYENLOMAC_ASSERT(sizeof(struct tuyenlomac_stamps) == 648);
TUYENLOMAC_ASSERT(offsetof(struct tuyenlomac_stamps, next) == 0);
TUYENLOMAC_ASSERT(offsetof(struct tuyenlomac_stamps, number) == 8);
TUYENLOMAC_ASSERT(offsetof(struct tuyenlomac_stamps, reader) == 136);
TUYENLOMAC_ASSERT(offsetof(struct tuyenlomac_stamps, writer) == 392);

/* Lists for the wakes of a step, in order. Each wake names the job that goes on now, the cell that it was granted, and what it does there: 'r',
   'w' or 'i' ('r' also if it asked 'u'). A step fills as many of the first places as there are wakes, and leaves the others as they were.
   There are at most 31 wakes on a desk that was started, and on any other desk no more than the lists have places. */
struct tuyenlomac_wakes {
    uint32_t job[32];
    uint32_t cell[32];
    uint8_t kind[32];
};
TUYENLOMAC_ASSERT(sizeof(struct tuyenlomac_wakes) == 288);
TUYENLOMAC_ASSERT(offsetof(struct tuyenlomac_wakes, job) == 0);
TUYENLOMAC_ASSERT(offsetof(struct tuyenlomac_wakes, cell) == 128);
TUYENLOMAC_ASSERT(offsetof(struct tuyenlomac_wakes, kind) == 256);

/* What a step answers: the word, GO to NO; the job (for a begin the new one), or for NO the refusal; and how many jobs it woke. */
struct tuyenlomac_answer {
    uint32_t word;
    uint32_t number;
    size_t wakes;
};
TUYENLOMAC_ASSERT(sizeof(struct tuyenlomac_answer) == 16);
TUYENLOMAC_ASSERT(offsetof(struct tuyenlomac_answer, word) == 0);
TUYENLOMAC_ASSERT(offsetof(struct tuyenlomac_answer, number) == 4);
TUYENLOMAC_ASSERT(offsetof(struct tuyenlomac_answer, wakes) == 8);

/* A chain: 0 and how many of the list's first places hold the chain; or the refusal and 0. */
struct tuyenlomac_chain {
    uint32_t refusal;
    size_t jobs;
};
TUYENLOMAC_ASSERT(sizeof(struct tuyenlomac_chain) == 16);
TUYENLOMAC_ASSERT(offsetof(struct tuyenlomac_chain, refusal) == 0);
TUYENLOMAC_ASSERT(offsetof(struct tuyenlomac_chain, jobs) == 8);

/* A verdict: said[0] is its word, and the other three are
     REFUSED  the refusal, the line's number (0 for SHORT_ORDER), and for BAD_LINE the field at fault (else 0)
     DIRTY    the job that read and the job that had written, of the first dirty read, and 0
     ORDERLY  how many jobs the order has, 0, 0
     KNOT     how many jobs the cycle has, 0, 0
   text[from], .. text[from + length - 1] is the faulty line without its newline; from and length are 0 if no line is at fault. */
struct tuyenlomac_judgement {
    uint32_t said[4];
    size_t from;
    size_t length;
};
TUYENLOMAC_ASSERT(sizeof(struct tuyenlomac_judgement) == 32);
TUYENLOMAC_ASSERT(offsetof(struct tuyenlomac_judgement, said) == 0);
TUYENLOMAC_ASSERT(offsetof(struct tuyenlomac_judgement, from) == 16);
TUYENLOMAC_ASSERT(offsetof(struct tuyenlomac_judgement, length) == 24);

/* What a line says. For a good line field is 0, kind is its letter, and job and cell are its numbers, 0 if the letter has none.
   For a bad line (BAD_LINE) field is the field at fault, 1 to 4, and the others are 0. */
struct tuyenlomac_line {
    uint32_t job;
    uint32_t cell;
    uint8_t kind;
    uint8_t field;
};
TUYENLOMAC_ASSERT(sizeof(struct tuyenlomac_line) == 12);
TUYENLOMAC_ASSERT(offsetof(struct tuyenlomac_line, job) == 0);
TUYENLOMAC_ASSERT(offsetof(struct tuyenlomac_line, cell) == 4);
TUYENLOMAC_ASSERT(offsetof(struct tuyenlomac_line, kind) == 8);
TUYENLOMAC_ASSERT(offsetof(struct tuyenlomac_line, field) == 9);

/* What writing a record returns: 0 and the place after the record; or the refusal and 0. */
struct tuyenlomac_written {
    uint32_t refusal;
    size_t next;
};
TUYENLOMAC_ASSERT(sizeof(struct tuyenlomac_written) == 16);
TUYENLOMAC_ASSERT(offsetof(struct tuyenlomac_written, refusal) == 0);
TUYENLOMAC_ASSERT(offsetof(struct tuyenlomac_written, next) == 8);

/* ---- In the archive */

/* These functions take a desk field by field, so the archive knows no struct of the caller. The functions below, which take a desk whole, say
   what they answer. jobs, cells and kinds are the lists for the wakes, and asked is the cell of the request. */
uint32_t tuyenlomac_locks_start_on(uint64_t *next, uint32_t number[32], uint8_t status[32], uint8_t cell[32], uint8_t ask[32],
                                   uint8_t held[2048], uint32_t first);
struct tuyenlomac_answer tuyenlomac_locks_step_on(uint64_t *next, uint32_t number[32], uint8_t status[32], uint8_t cell[32], uint8_t ask[32],
                                                  uint8_t held[2048], uint32_t jobs[32], uint32_t cells[32], uint8_t kinds[32],
                                                  uint8_t kind, uint32_t job, uint32_t asked);
struct tuyenlomac_chain tuyenlomac_locks_chain_on(const uint64_t *next, const uint32_t number[32], const uint8_t status[32],
                                                  const uint8_t cell[32], const uint8_t ask[32], const uint8_t held[2048], uint32_t job,
                                                  uint32_t *list, size_t length);
uint32_t tuyenlomac_stamps_start_on(uint64_t *next, uint32_t number[32], uint32_t reader[64], uint32_t writer[64], uint32_t first);
struct tuyenlomac_answer tuyenlomac_stamps_step_on(uint64_t *next, uint32_t number[32], uint32_t reader[64], uint32_t writer[64],
                                                   uint8_t kind, uint32_t job, uint32_t cell);

/* The verdict on the text of a history: length bytes, any number of them, in lines as docs/FORMATS.md has them. The first of these that applies:
     REFUSED with SHORT_ORDER for fewer than 255 places, whatever the text; otherwise for the first faulty line, with the first that applies to it
             of TOO_MANY_LINES (line 4,097), BAD_LINE (also for a missing newline at the end of the text), JOB_OUTSIDE, CELL_ABOVE and ENDED
     DIRTY   if a run that commits read what another run had written or incremented, and that other run had not ended yet and does not commit
             (a run is one attempt of a job, up to its commit, give-up or being sent back)
     ORDERLY if the committed jobs can be put one after another so that each conflict keeps its order; an empty text is ORDERLY
     KNOT    otherwise
   The order, the cycle, or reader and writer fill the first places of the order buffer; the other places stay, and after REFUSED all of them. */
struct tuyenlomac_judgement tuyenlomac_judge(const uint8_t *text, size_t length, uint8_t *order, size_t places);

/* What one line says, as a request and as a line of a history: length bytes, with the newline that ends it. Bytes after a newline, a missing
   newline and an empty line are faults, like all others in docs/FORMATS.md; the result has the lowest field at fault. */
struct tuyenlomac_line tuyenlomac_read_request(const uint8_t *line, size_t length);
struct tuyenlomac_line tuyenlomac_read_history(const uint8_t *line, size_t length);

/* write_answer writes an answer record: the number of the request's line, the word (GO to WAKE), a number, and, if it is not 0, the field at fault
   of a BAD_LINE. write_line writes the line of a letter, with the job and cell that the letter has: a history record or a request. Both write from
   place at on, which need not be within the buffer; all other bytes are unchanged. On failure they return the first that applies of UNKNOWN_KIND,
   for an unknown word or letter, and NO_ROOM, if the record does not fit, and leave the buffer unchanged. The values are not
   checked: they are written as given, in at most 68 bytes. */
struct tuyenlomac_written tuyenlomac_write_answer(uint8_t *buffer, size_t length, size_t at, uint64_t line, uint32_t word, uint64_t number,
                                                  uint64_t field);
struct tuyenlomac_written tuyenlomac_write_line(uint8_t *buffer, size_t length, size_t at, uint8_t kind, uint64_t job, uint64_t cell);

/* ---- A desk lent whole */

/* Starts a lock desk whose first begin gets the number first, and returns 0. If first is 0 it returns STARTED_AT_ZERO,
   starts nothing, and leaves the struct unchanged. */
static inline uint32_t tuyenlomac_locks_start(struct tuyenlomac_locks *desk, uint32_t first) {
    return tuyenlomac_locks_start_on(&desk->next, desk->number, desk->status, desk->cell, desk->ask, desk->held, first);
}

/* One request. A begin reads neither job nor cell; commit, give-up and retry read no cell. The answer is
     GO     the request is done; the number is the job's, for a begin the new one
     WAIT   the job waits; it may only give up until a wake of a later step names it
     BACK   the job was sent back, holds nothing, and may retry or give up. Undo what it did before you tell the woken jobs and free the mutex
     NO     with the refusal; the desk does not change. It is UNKNOWN_KIND; or for a begin the first that applies of NO_NUMBER_LEFT and ALL_OPEN;
            or for others the first that applies of NOT_OPEN, WAITING, WAS_SENT_BACK, RUNNING and CELL_ABOVE
   A read needs a shared lock (S), a write an exclusive one (X), an increment an increment lock (I), an UPDATE an update lock (U). Beside another
   job's S an S or a U is granted, beside an I an I, and nothing else; docs/MATRIX.md has the whole matrix, and what a job asks for that holds the
   cell already. The smaller number is the older job.
     the job holds nothing there   GO if no job waits there and its lock is granted beside every holder's; otherwise WAIT if it is older than
                                   every holder and every waiter there; otherwise BACK
     the job holds the cell        GO if its lock is enough, or the one it asks for is granted beside every other holder's; otherwise WAIT if it
                                   is older than every other holder; otherwise BACK
   Only a commit, a give-up and a BACK wake other jobs. */
static inline struct tuyenlomac_answer tuyenlomac_locks_step(struct tuyenlomac_locks *desk, uint8_t kind, uint32_t job, uint32_t cell,
                                                             struct tuyenlomac_wakes *wakes) {
    return tuyenlomac_locks_step_on(&desk->next, desk->number, desk->status, desk->cell, desk->ask, desk->held, wakes->job, wakes->cell,
                                    wakes->kind, kind, job, cell);
}

/* Why a job waits: the job, the youngest job (the largest number) in its way, the youngest in the way of that one, and so on to a job that runs;
   for a running job, itself alone. It fills the first places of the list and leaves the others unchanged. A refusal is the first that applies of
   NOT_OPEN, WAS_SENT_BACK and SHORT_LIST (fewer than 32 places), and leaves the list unchanged. The desk does not change. */
static inline struct tuyenlomac_chain tuyenlomac_locks_chain(const struct tuyenlomac_locks *desk, uint32_t job, uint32_t *list, size_t length) {
    return tuyenlomac_locks_chain_on(&desk->next, desk->number, desk->status, desk->cell, desk->ask, desk->held, job, list, length);
}

/* Starts a timestamp desk, as tuyenlomac_locks_start starts a lock desk. */
static inline uint32_t tuyenlomac_stamps_start(struct tuyenlomac_stamps *desk, uint32_t first) {
    return tuyenlomac_stamps_start_on(&desk->next, desk->number, desk->reader, desk->writer, first);
}

/* One request to a timestamp desk. The answer is GO; BACK, and then the job is closed; or NO with the refusal: UNKNOWN_KIND; or for a begin the
   first that applies of NO_NUMBER_LEFT and ALL_OPEN; or for others the first that applies of NOT_OPEN, NO_RETRY (for every retry) and CELL_ABOVE.
   A read or an UPDATE gets BACK if the job is smaller than the cell's writer, a write or an increment if it is smaller than the cell's reader or
   writer. No job waits or wakes: wakes is 0. After GO, act before the mutex is freed, since nothing is held. */
static inline struct tuyenlomac_answer tuyenlomac_stamps_step(struct tuyenlomac_stamps *desk, uint8_t kind, uint32_t job, uint32_t cell) {
    return tuyenlomac_stamps_step_on(&desk->next, desk->number, desk->reader, desk->writer, kind, job, cell);
}

#undef TUYENLOMAC_ASSERT

#ifdef __cplusplus
}
#endif

#endif
