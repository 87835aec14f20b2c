/* Runs the library on standard input as the programs of this repository run their own code, so that library/test can compare the two byte for byte:

       try answers | stamp_answers | chain | verdict    prints what those programs print
       try lines | steps | cases                        prints what try_text, try_desk and try_judge print
       try judge                                        prints the verdict on a text of any length, and the faulty line, as try_judge prints them
       try mix [STEPS], try stamp_mix [STEPS]           prints what time_desk prints, for the lock desk and for the timestamp desk
       try rubbish                                      runs steps, chains and records over random bytes, and prints counts
       try empty                                        makes every call that takes a length with NULL and 0

   What is lent holds FILL, or known numbers, before each call, and is checked after it: what the header says stays must stay, and the fields of a
   desk must hold what the header says. If they do not, there is a message and status 1. It compiles as C11 and as C++11. */
#include <stdio.h>
#include <stdlib.h>
#include <string.h>

#include "mix.h"

enum {
    FILL = 0xA5,          /* what every byte holds before it is lent */
    LINES = 1000000,      /* the number of request lines that are answered */
    JUDGED = 65536,       /* a history of more bytes gets TOO_LONG */
    TOO_LONG = 16,        /* a refusal that only the program verdict gives */
    ORDER_PLACES = 300,   /* places that a case can lend */
    ASKS = 256,           /* in steps, the kind of a question for a chain */
    LIST_PLACES = 64      /* places that a question can lend */
};
static const uint32_t BEFORE = 4000000000u; /* a list's first place before it is lent; each further place is one larger */

static void hold(int fact, const char *what) {
    if (fact)
        return;
    fflush(stdout);
    fprintf(stderr, "try: %s\n", what);
    exit(1);
}

/* Whether all these bytes hold FILL. */
static int untouched(const void *from, size_t length) {
    static uint8_t filled[4096];
    if (filled[0] != FILL)
        memset(filled, FILL, sizeof filled);
    hold(length <= sizeof filled, "more bytes are looked at than can be");
    return memcmp(from, filled, length) == 0;
}

/* ---- Either desk */

struct desk {
    int by_stamps;
    struct tuyenlomac_locks locks;
    struct tuyenlomac_stamps stamps;
    struct tuyenlomac_wakes wakes; /* of the last step */
};

/* Starts a desk. Returns 0; or the refusal, and then what was there stays. */
static uint32_t start(struct desk *d, int by_stamps, uint32_t first) {
    memset(d, FILL, sizeof *d);
    d->by_stamps = by_stamps;
    uint32_t refusal = by_stamps ? tuyenlomac_stamps_start(&d->stamps, first) : tuyenlomac_locks_start(&d->locks, first);
    int stays = untouched(&d->locks, sizeof d->locks) && untouched(&d->stamps, sizeof d->stamps);
    hold((refusal != 0) == stays, "a desk was started, and is refused; or it was not, and is not");
    return refusal;
}

/* The wakes of a step are in the first places, and the other places stay. */
static void look_at_wakes(const uint32_t *jobs, const uint32_t *cells, const uint8_t *kinds, size_t told) {
    hold(told <= TUYENLOMAC_PLACES, "more wakes are told than there are places");
    size_t rest = TUYENLOMAC_PLACES - told;
    hold(untouched(jobs + told, rest * sizeof *jobs) && untouched(cells + told, rest * sizeof *cells) && untouched(kinds + told, rest),
         "a place of the wakes behind those that are told has changed");
}

/* The place of a job on a desk; PLACES if it has none. */
static size_t place_of(const uint32_t *number, uint32_t job) {
    size_t place = 0;
    while (place < TUYENLOMAC_PLACES && number[place] != job)
        place++;
    return place;
}

/* Whether a job runs and, if it asked for a cell, holds a lock there that allows it, by the header's numbers of locks. */
static int granted(const struct tuyenlomac_locks *d, uint32_t job, uint32_t cell, uint8_t kind) {
    size_t place = place_of(d->number, job);
    if (place == TUYENLOMAC_PLACES || d->status[place] != 1)
        return 0;
    uint8_t lock = d->held[32 * (cell % TUYENLOMAC_CELLS) + place]; /* for other kinds the cell may have any value */
    switch (kind) {
    case TUYENLOMAC_READ: return lock == 1 || lock == 2 || lock == 4;
    case TUYENLOMAC_WRITE: return lock == 2;
    case TUYENLOMAC_INCREMENT: return lock == 2 || lock == 3;
    case TUYENLOMAC_UPDATE: return lock == 2 || lock == 4;
    default: return 1;
    }
}

/* Whether the job at a place holds nothing on any cell. */
static int holds_nothing(const struct tuyenlomac_locks *d, size_t place) {
    for (size_t cell = 0; cell < TUYENLOMAC_CELLS; cell++)
        if (d->held[32 * cell + place] != 0)
            return 0;
    return 1;
}

/* After a step that was not refused, the fields of a lock desk hold what the header says. */
static void look_at_locks(const struct tuyenlomac_locks *d, uint8_t kind, uint32_t cell, struct tuyenlomac_answer said,
                          const struct tuyenlomac_wakes *wakes) {
    static const uint8_t asks[] = {TUYENLOMAC_READ, TUYENLOMAC_WRITE, TUYENLOMAC_INCREMENT, TUYENLOMAC_UPDATE};
    size_t place = place_of(d->number, said.number);
    if (said.word == TUYENLOMAC_GO && (kind == TUYENLOMAC_COMMIT || kind == TUYENLOMAC_GIVE_UP))
        hold(place == TUYENLOMAC_PLACES, "a job that has ended has a place");
    else
        hold(place < TUYENLOMAC_PLACES, "an open job has no place");
    if (said.word == TUYENLOMAC_GO && place < TUYENLOMAC_PLACES)
        hold(granted(d, said.number, cell, kind), "a job that goes does not run, or not under its lock");
    if (said.word == TUYENLOMAC_GO && kind == TUYENLOMAC_BEGIN)
        hold(d->next == (uint64_t)said.number + 1, "the next begin does not get the next number");
    if (said.word == TUYENLOMAC_WAIT)
        hold(d->status[place] == 2 && d->cell[place] == cell && d->ask[place] < 4 && asks[d->ask[place]] == kind, "a job does not wait for what it asked");
    if (said.word == TUYENLOMAC_BACK)
        hold(d->status[place] == 3 && holds_nothing(d, place), "a job that was sent back is not, or holds something");
    for (size_t i = 0; i < said.wakes; i++)
        hold(granted(d, wakes->job[i], wakes->cell[i], wakes->kind[i]), "a job that was woken does not run, or not under its lock");
}

/* The same for a timestamp desk: the cell's numbers are as before, or the job's number if it has read or written. */
static void look_at_stamps(const struct tuyenlomac_stamps *before, const struct tuyenlomac_stamps *d, uint8_t kind, uint32_t cell,
                           struct tuyenlomac_answer said) {
    int goes = said.word == TUYENLOMAC_GO, ends = !goes || kind == TUYENLOMAC_COMMIT || kind == TUYENLOMAC_GIVE_UP;
    int writes = kind == TUYENLOMAC_WRITE || kind == TUYENLOMAC_INCREMENT;
    int reads = kind == TUYENLOMAC_READ || kind == TUYENLOMAC_INCREMENT || kind == TUYENLOMAC_UPDATE;
    hold((place_of(d->number, said.number) == TUYENLOMAC_PLACES) == ends, "a job that is open has no place, or one that is closed has one");
    hold(d->next == (kind == TUYENLOMAC_BEGIN ? (uint64_t)said.number + 1 : before->next), "the next begin does not get the next number");
    if (!reads && !writes)
        return;
    uint32_t reader = before->reader[cell], writer = before->writer[cell];
    hold(d->reader[cell] == (goes && reads && said.number > reader ? said.number : reader), "a cell has another reader's number");
    hold(d->writer[cell] == (goes && writes ? said.number : writer), "a cell has another writer's number");
}

/* One step. After a refusal the desk and the lists must be as before; otherwise the fields must be what they should be. */
static struct tuyenlomac_answer step(struct desk *d, uint8_t kind, uint32_t job, uint32_t cell) {
    static struct desk before;
    memset(&d->wakes, FILL, sizeof d->wakes);
    memcpy(&before, d, sizeof before);
    struct tuyenlomac_answer said =
        d->by_stamps ? tuyenlomac_stamps_step(&d->stamps, kind, job, cell) : tuyenlomac_locks_step(&d->locks, kind, job, cell, &d->wakes);
    hold(said.word <= TUYENLOMAC_NO, "an answer has an unknown word");
    hold(!d->by_stamps || (said.word != TUYENLOMAC_WAIT && said.wakes == 0), "somebody waits or wakes at the timestamp desk");
    look_at_wakes(d->wakes.job, d->wakes.cell, d->wakes.kind, said.wakes);
    if (said.word == TUYENLOMAC_NO)
        hold(memcmp(&before, d, sizeof before) == 0, "a step that is refused has changed the desk");
    else if (d->by_stamps)
        look_at_stamps(&before.stamps, &d->stamps, kind, cell, said);
    else
        look_at_locks(&d->locks, kind, cell, said, &d->wakes);
    return said;
}

/* The chain of a job, over a list of that many places, at most LIST_PLACES; the places after the chain stay. */
static struct tuyenlomac_chain chain_of(const struct tuyenlomac_locks *d, uint32_t job, uint32_t *list, size_t length) {
    for (uint32_t i = 0; i < LIST_PLACES; i++)
        list[i] = BEFORE + i;
    struct tuyenlomac_chain told = tuyenlomac_locks_chain(d, job, list, length);
    hold((told.refusal == 0) == (told.jobs > 0) && told.jobs <= length && told.jobs <= TUYENLOMAC_PLACES, "a chain is told that there cannot be");
    for (size_t i = told.jobs; i < LIST_PLACES; i++)
        hold(list[i] == BEFORE + i, "a place of the list behind the chain has changed");
    return told;
}

/* ---- Texts and records */

struct text {
    uint8_t *bytes;
    size_t length;
    size_t at; /* the place up to which it is read */
};

static struct text read_all(void) {
    size_t room = 65536;
    struct text in = {(uint8_t *)malloc(room), 0, 0};
    size_t got;
    hold(in.bytes != NULL, "no memory");
    while ((got = fread(in.bytes + in.length, 1, room - in.length, stdin)) > 0) {
        in.length += got;
        if (in.length == room)
            in.bytes = (uint8_t *)realloc(in.bytes, room *= 2);
        hold(in.bytes != NULL, "no memory");
    }
    hold(!ferror(stdin), "cannot read");
    return in;
}

/* The next line with its newline, which the last line may lack, and its length; 0 at the end. */
static size_t next_line(struct text *in, const uint8_t **line) {
    const uint8_t *from = in->bytes + in->at;
    size_t left = in->length - in->at;
    const uint8_t *newline = left > 0 ? (const uint8_t *)memchr(from, '\n', left) : NULL;
    size_t length = newline != NULL ? (size_t)(newline - from) + 1 : left;
    in->at += length;
    *line = from;
    return length;
}

/* The next number: its digits up to the first other byte, which is put into end; a number that is too large becomes the largest. */
static uint32_t next_number(struct text *in, int *end) {
    uint64_t value = 0;
    for (;;) {
        *end = in->at < in->length ? in->bytes[in->at++] : EOF;
        if (*end < '0' || *end > '9')
            return (uint32_t)value;
        value = value * 10 + (uint64_t)(*end - '0');
        if (value > UINT32_MAX)
            value = UINT32_MAX;
    }
}

/* A record: an answer to a request line, with its word and numbers; or, with a letter, that letter's line with its job and cell. */
struct record {
    uint8_t letter;
    uint32_t word;
    uint64_t line;
    uint64_t number; /* or the job */
    uint64_t last;   /* the field at fault, or the cell */
};

static struct tuyenlomac_written write_record(const struct record *r, uint8_t *buffer, size_t length, size_t at) {
    if (r->letter != 0)
        return tuyenlomac_write_line(buffer, length, at, r->letter, r->number, r->last);
    return tuyenlomac_write_answer(buffer, length, at, r->line, r->word, r->number, r->last);
}

/* Prints a record. It fits into exactly its own length, and with one byte less it is refused; all other bytes stay. */
static void put_record(const struct record *r) {
    enum { ROOM = 128, AT = 16 };
    uint8_t buffer[ROOM];
    memset(buffer, FILL, ROOM);
    struct tuyenlomac_written told = write_record(r, buffer, ROOM, AT);
    size_t end = told.next;
    hold(told.refusal == 0 && AT < end && end <= ROOM, "a record is refused although there is room");
    hold(untouched(buffer, AT) && untouched(buffer + end, ROOM - end), "a record has changed a byte beside it");
    fwrite(buffer + AT, 1, end - AT, stdout);
    memset(buffer, FILL, ROOM);
    told = write_record(r, buffer, end - 1, AT);
    hold(told.refusal == TUYENLOMAC_NO_ROOM && told.next == 0 && untouched(buffer, ROOM), "a record is written although there is no room");
    told = write_record(r, buffer, end, AT);
    hold(told.refusal == 0 && told.next == end, "a record is refused although there is just room");
}

static void put_answer(uint64_t line, uint32_t word, uint64_t number, uint64_t field) {
    struct record r = {0, word, line, number, field};
    put_record(&r);
}

/* ---- answers, stamp_answers, chain */

static void answer_line(struct desk *d, uint64_t number, const uint8_t *line, size_t length, int shown) {
    struct tuyenlomac_line asked = tuyenlomac_read_request(line, length);
    if (asked.field != 0) {
        if (shown)
            put_answer(number, TUYENLOMAC_NO, TUYENLOMAC_BAD_LINE, asked.field);
        return;
    }
    struct tuyenlomac_answer said = step(d, asked.kind, asked.job, asked.cell);
    if (!shown)
        return;
    put_answer(number, said.word, said.number, 0);
    for (size_t i = 0; i < said.wakes; i++)
        put_answer(number, TUYENLOMAC_WAKE, d->wakes.job[i], 0);
}

/* All request lines on a desk started at 1; prints the answers if they are to be shown. */
static void serve(struct desk *d, int by_stamps, int shown) {
    struct text in = read_all();
    const uint8_t *line;
    size_t length;
    hold(start(d, by_stamps, 1) == 0, "a start at 1 is refused");
    for (uint64_t number = 1; number <= LINES && (length = next_line(&in, &line)) > 0; number++)
        answer_line(d, number, line, length, shown);
    free(in.bytes);
}

static void answers(int by_stamps) {
    static struct desk d;
    serve(&d, by_stamps, 1);
}

static int by_number(const void *a, const void *b) {
    uint32_t one = *(const uint32_t *)a, other = *(const uint32_t *)b;
    return (one > other) - (one < other);
}

/* The chains of all jobs that wait at the end, in ascending order. */
static void chain(void) {
    static struct desk d;
    uint32_t waiting[TUYENLOMAC_PLACES], list[LIST_PLACES];
    size_t count = 0;
    serve(&d, 0, 0);
    for (int p = 0; p < TUYENLOMAC_PLACES; p++)
        if (d.locks.status[p] == 2)
            waiting[count++] = d.locks.number[p];
    qsort(waiting, count, sizeof *waiting, by_number);
    for (size_t i = 0; i < count; i++) {
        struct tuyenlomac_chain told = chain_of(&d.locks, waiting[i], list, TUYENLOMAC_PLACES);
        hold(told.refusal == 0 && told.jobs > 1, "a job that waits has no chain");
        for (size_t k = 0; k < told.jobs; k++)
            printf("%u%c", list[k], k + 1 < told.jobs ? '\t' : '\n');
    }
}

/* ---- lines */

static void put_request_reading(uint64_t number, const uint8_t *line, size_t length) {
    struct tuyenlomac_line said = tuyenlomac_read_request(line, length);
    if (said.field != 0) {
        hold(said.kind == 0 && said.job == 0 && said.cell == 0, "a bad line says something");
        put_answer(number, TUYENLOMAC_NO, TUYENLOMAC_BAD_LINE, said.field);
        return;
    }
    put_answer(number, TUYENLOMAC_GO, said.kind, 0);
    if (said.kind != TUYENLOMAC_BEGIN)
        put_answer(number, TUYENLOMAC_WAIT, said.job, 0);
    if (strchr("rwiu", said.kind) != NULL)
        put_answer(number, TUYENLOMAC_BACK, said.cell, 0);
}

static void put_history_reading(uint64_t number, const uint8_t *line, size_t length) {
    struct tuyenlomac_line said = tuyenlomac_read_history(line, length);
    if (said.field != 0) {
        hold(said.kind == 0 && said.job == 0 && said.cell == 0, "a bad line says something");
        put_answer(number, TUYENLOMAC_WAKE, TUYENLOMAC_BAD_LINE, said.field);
        return;
    }
    struct record r = {said.kind, 0, 0, said.job, said.cell};
    put_record(&r);
}

static void lines(void) {
    struct text in = read_all();
    const uint8_t *line;
    size_t length;
    for (uint64_t number = 1; (length = next_line(&in, &line)) > 0; number++) {
        put_request_reading(number, line, length);
        put_history_reading(number, line, length);
    }
    free(in.bytes);
}

/* ---- steps */

static void put_step(struct desk *d, uint8_t kind, uint32_t job, uint32_t cell) {
    static const char *const words[] = {"go", "wait", "back", "no"};
    struct tuyenlomac_answer said = step(d, kind, job, cell);
    printf("%s\t%u", words[said.word], said.number);
    for (size_t i = 0; i < said.wakes; i++)
        printf("\twake\t%u\t%u\t%u", d->wakes.job[i], d->wakes.cell[i], (unsigned)d->wakes.kind[i]);
    putchar('\n');
}

static void put_question(const struct desk *d, uint32_t job, uint32_t places) {
    uint32_t list[LIST_PLACES];
    size_t length = places < LIST_PLACES ? places : (size_t)LIST_PLACES;
    struct tuyenlomac_chain told = chain_of(&d->locks, job, list, length);
    if (told.refusal != 0)
        printf("no\t%u", told.refusal);
    else
        printf("chain\t%zu", told.jobs);
    for (size_t i = 0; i < length; i++)
        printf("\t%u", list[i]);
    putchar('\n');
}

/* The first number, followed by a blank for the timestamp desk; then steps, up to a line that is no step. */
static void steps(void) {
    static struct desk d;
    struct text in = read_all();
    int end;
    uint32_t first = next_number(&in, &end);
    int by_stamps = end == ' ';
    if (by_stamps)
        next_number(&in, &end);
    uint32_t refusal = start(&d, by_stamps, first);
    if (refusal != 0)
        printf("no\t%u\n", refusal);
    while (refusal == 0) {
        uint32_t kind = next_number(&in, &end);
        if (end != ' ' || kind > ASKS || (kind == ASKS && by_stamps))
            break;
        uint32_t job = next_number(&in, &end);
        uint32_t cell = next_number(&in, &end);
        if (kind == ASKS)
            put_question(&d, job, cell);
        else
            put_step(&d, (uint8_t)kind, job, cell);
    }
    free(in.bytes);
}

/* ---- verdict, judge, cases */

/* How many places of the order buffer a verdict fills; for a dirty read they hold reader and writer. Numbers that a verdict does not use are 0. */
static size_t told_places(const struct tuyenlomac_judgement *j, const uint8_t *order) {
    const uint32_t *said = j->said;
    hold(said[0] == TUYENLOMAC_REFUSED || (said[3] == 0 && j->from == 0 && j->length == 0), "a verdict has a field or a faulty line");
    switch (said[0]) {
    case TUYENLOMAC_ORDERLY:
    case TUYENLOMAC_KNOT:
        hold(said[1] <= TUYENLOMAC_ORDER && said[2] == 0, "an order is told that there cannot be");
        return said[1];
    case TUYENLOMAC_DIRTY:
        hold(order[0] == said[1] && order[1] == said[2], "reader and writer do not stand in the order buffer");
        return 2;
    default:
        hold(said[0] == TUYENLOMAC_REFUSED && (said[3] != 0) == (said[1] == TUYENLOMAC_BAD_LINE), "an unknown verdict");
        return 0;
    }
}

/* The faulty line is a whole line of the text, without its newline; if no line is at fault, there is none. */
static void look_at_line(const struct tuyenlomac_judgement *j, const uint8_t *text, size_t length) {
    size_t from = j->from, end = j->from + j->length;
    hold(from <= length && j->length <= length - from, "the faulty line stands outside of the text");
    hold(from == 0 || text[from - 1] == '\n', "the faulty line does not begin where a line does");
    hold(memchr(text + from, '\n', j->length) == NULL, "the faulty line is more than a line");
    hold(j->said[0] != TUYENLOMAC_REFUSED || j->said[2] == 0 || end == length || text[end] == '\n', "the faulty line does not end where a line does");
    hold(j->said[0] != TUYENLOMAC_REFUSED || j->said[2] != 0 || end == 0, "a line is handed back where none is at fault");
}

/* The verdict on a text, over an order buffer of that many places, at most ORDER_PLACES; the places that it does not fill stay. */
static struct tuyenlomac_judgement judged(const uint8_t *text, size_t length, uint8_t *order, size_t places) {
    memset(order, FILL, ORDER_PLACES);
    struct tuyenlomac_judgement j = tuyenlomac_judge(text, length, order, places);
    size_t told = told_places(&j, order);
    hold(told <= places && untouched(order + told, ORDER_PLACES - told), "a place of the order buffer behind what is told has changed");
    look_at_line(&j, text, length);
    return j;
}

static void put_verdict(const uint32_t *said, const uint8_t *order) {
    static const char *const words[] = {"orderly", "knot", "no", "dirty"};
    fputs(words[said[0]], stdout);
    if (said[0] == TUYENLOMAC_REFUSED) {
        printf("\t%u\t%u", said[2], said[1]);
        if (said[3] != 0)
            printf("\t%u", said[3]);
    } else {
        size_t count = said[0] == TUYENLOMAC_DIRTY ? 2 : said[1];
        for (size_t i = 0; i < count; i++)
            printf("\t%u", (unsigned)order[i]);
    }
    putchar('\n');
}

/* The verdict's line on a text of any length and, if wanted, the faulty line that is handed back. */
static void put_judged(const uint8_t *text, size_t length, size_t places, int wanted) {
    uint8_t order[ORDER_PLACES];
    struct tuyenlomac_judgement j = judged(text, length, order, places);
    put_verdict(j.said, order);
    if (wanted && j.said[0] == TUYENLOMAC_REFUSED && j.said[2] > 0) {
        fputs("line\t", stdout);
        fwrite(text + j.from, 1, j.length, stdout);
        putchar('\n');
    }
}

/* The same for a text that the programs take, and what they say about a longer one. */
static void put_case(const uint8_t *text, size_t length, size_t places, int wanted) {
    if (length > JUDGED)
        printf("no\t0\t%u\n", (unsigned)TOO_LONG);
    else
        put_judged(text, length, places, wanted);
}

static void verdict(void) {
    struct text in = read_all();
    put_case(in.bytes, in.length, TUYENLOMAC_ORDER, 0);
    free(in.bytes);
}

static void judge(void) {
    struct text in = read_all();
    put_judged(in.bytes, in.length, TUYENLOMAC_ORDER, 1);
    free(in.bytes);
}

/* The places that a case lends: the digits of its header. */
static size_t places_of(const uint8_t *header, size_t length) {
    size_t places = 0;
    for (size_t i = 0; i < length; i++) {
        if (header[i] >= '0' && header[i] <= '9')
            places = places * 10 + (size_t)(header[i] - '0');
        if (places > ORDER_PLACES)
            places = ORDER_PLACES;
    }
    return places;
}

/* A case reaches from its header to the next one, or to the end. */
static void cases(void) {
    struct text in = read_all();
    const uint8_t *line, *text = in.bytes;
    size_t length, places = 0;
    int open = 0;
    while ((length = next_line(&in, &line)) > 0) {
        if (line[0] != '=')
            continue;
        if (open)
            put_case(text, (size_t)(line - text), places, 1);
        open = line[length - 1] == '\n';
        places = places_of(line, length);
        text = line + length;
    }
    if (open)
        put_case(text, (size_t)(in.bytes + in.length - text), places, 1);
    free(in.bytes);
}

/* ---- mix, stamp_mix */

static void mix(int by_stamps, long count) {
    static struct desk d;
    static struct mix m;
    m.x = 1;
    hold(start(&d, by_stamps, 1) == 0, "a start at 1 is refused");
    for (long i = 0; i < count; i++) {
        mix_draw(&m);
        mix_answered(&m, step(&d, m.kind, m.job, m.cell), !by_stamps);
    }
    for (int i = 0; i < 5; i++)
        printf("%llu%c", (unsigned long long)m.tally[i], i < 4 ? '\t' : '\n');
}

/* ---- rubbish: the same random numbers as in try.rs, so the two print the same line */

enum { DESKS = 10000, STEPS = 24, RECORDS = 50000, CANARY = 64, OBJECTS = 10 };

static uint32_t draw(void) {
    static uint64_t x = 88172645463325252u;
    x ^= x << 13;
    x ^= x >> 7;
    x ^= x << 17;
    return (uint32_t)(x >> 32);
}

/* What is lent in a call is in one block, with a canary before and after each object. */
struct block {
    uint8_t *bytes;
    int count;
    size_t from[OBJECTS], to[OBJECTS];
};

static void *lay(struct block *b, size_t size) {
    size_t from = (b->count > 0 ? b->to[b->count - 1] : 0) + CANARY;
    b->from[b->count] = from;
    b->to[b->count] = from + size;
    b->count++;
    b->bytes = (uint8_t *)realloc(b->bytes, from + size + CANARY);
    hold(b->bytes != NULL, "no memory");
    memset(b->bytes + from - CANARY, FILL, size + 2 * CANARY);
    return b->bytes + from;
}

static void look_at_canaries(const struct block *b) {
    for (int i = 0; i < b->count; i++)
        hold(untouched(b->bytes + b->from[i] - CANARY, CANARY) && untouched(b->bytes + b->to[i], CANARY), "a byte was written that was not lent");
}

/* Fills the first objects, those of a desk, with any bytes, or with small ones, which more often mean something. */
static void fill(const struct block *b, int objects) {
    static const uint32_t masks[] = {255, 7, 3, 3};
    uint32_t mask = masks[draw() % 4], low = draw() % 2;
    for (int i = 0; i < objects; i++)
        for (size_t p = b->from[i]; p < b->to[i]; p++)
            b->bytes[p] = (uint8_t)(draw() & mask);
    if (low) /* a next number that can still be given */
        memset(b->bytes + b->from[0] + 4, 0, 4);
    if (objects == 6 && draw() % 2 != 0) /* a lock desk with few locks held, so that more is granted */
        for (size_t p = b->from[5]; p < b->to[5]; p++)
            if ((p - b->from[5]) % 37 != 0)
                b->bytes[p] = 0;
}

/* Every byte of the first objects goes into a checksum, by which two runs are compared. */
static uint64_t summed(uint64_t sum, const struct block *b, int objects) {
    for (int i = 0; i < objects; i++)
        for (size_t p = b->from[i]; p < b->to[i]; p++)
            sum = (sum ^ b->bytes[p]) * 1099511628211u;
    return sum;
}

struct asked {
    uint8_t kind;
    uint32_t job;
    uint32_t cell;
};

/* A request, usually of one of the jobs on the desk. */
static struct asked draw_request(const uint32_t *number) {
    uint32_t letter = draw() % 10, any = draw(), place = draw() % 32, cell = draw();
    struct asked a;
    a.kind = letter < 9 ? (uint8_t) "bcatrwiuk"[letter] : (uint8_t)(any & 255);
    a.job = any % 4 != 0 ? number[place] : any;
    a.cell = any % 8 != 0 ? cell % 64 : cell;
    return a;
}

struct counts {
    uint64_t told[5]; /* counts of answers by word, and of wakes */
    uint64_t chained; /* counts of jobs in chains, and of refused chains */
    uint64_t refused;
    uint64_t sum;
};

static void count_answer(struct counts *c, struct tuyenlomac_answer said) {
    hold(said.word <= TUYENLOMAC_NO, "an answer has an unknown word");
    c->told[said.word]++;
    c->told[4] += said.wakes;
    c->sum = (c->sum ^ said.number) * 1099511628211u;
}

/* A lock desk of random bytes: each of its fields, and each list, is an object of its own. */
struct loose {
    struct block block;
    uint64_t *next;
    uint32_t *number;
    uint8_t *status, *cell, *ask, *held;
    uint32_t *jobs, *cells;
    uint8_t *kinds;
    uint32_t *list;
};

static void lay_locks(struct loose *d) {
    static const size_t sizes[OBJECTS] = {8, 128, 32, 32, 32, 2048, 128, 128, 32, 4 * LIST_PLACES};
    for (int i = 0; i < OBJECTS; i++)
        lay(&d->block, sizes[i]);
    uint8_t *bytes = d->block.bytes;
    const size_t *from = d->block.from;
    d->next = (uint64_t *)(void *)(bytes + from[0]);
    d->number = (uint32_t *)(void *)(bytes + from[1]);
    d->status = bytes + from[2];
    d->cell = bytes + from[3];
    d->ask = bytes + from[4];
    d->held = bytes + from[5];
    d->jobs = (uint32_t *)(void *)(bytes + from[6]);
    d->cells = (uint32_t *)(void *)(bytes + from[7]);
    d->kinds = bytes + from[8];
    d->list = (uint32_t *)(void *)(bytes + from[9]);
}

static void step_loose(struct loose *d, struct counts *c) {
    struct asked a = draw_request(d->number);
    memset(d->jobs, FILL, 128);
    memset(d->cells, FILL, 128);
    memset(d->kinds, FILL, 32);
    struct tuyenlomac_answer said = tuyenlomac_locks_step_on(d->next, d->number, d->status, d->cell, d->ask, d->held, d->jobs, d->cells, d->kinds,
                                                             a.kind, a.job, a.cell);
    look_at_canaries(&d->block);
    look_at_wakes(d->jobs, d->cells, d->kinds, said.wakes);
    count_answer(c, said);
}

static void chain_loose(struct loose *d, struct counts *c) {
    struct asked a = draw_request(d->number);
    size_t length = a.cell % 3 != 0 ? TUYENLOMAC_PLACES + a.cell % 33 : a.cell % 64;
    uint64_t before = summed(0, &d->block, 6);
    memset(d->list, FILL, 4 * LIST_PLACES);
    struct tuyenlomac_chain told = tuyenlomac_locks_chain_on(d->next, d->number, d->status, d->cell, d->ask, d->held, a.job, d->list, length);
    look_at_canaries(&d->block);
    hold(told.jobs <= length && told.jobs <= TUYENLOMAC_PLACES && (told.refusal == 0) == (told.jobs > 0), "a chain is told that there cannot be");
    hold(untouched(d->list + told.jobs, 4 * (LIST_PLACES - told.jobs)), "a place of the list behind the chain has changed");
    hold(summed(0, &d->block, 6) == before, "asking for a chain has changed the desk");
    c->chained += told.jobs;
    c->refused += told.refusal != 0;
}

static struct counts rubbish_locks(void) {
    static struct loose d;
    struct counts c = {{0, 0, 0, 0, 0}, 0, 0, 14695981039346656037u};
    lay_locks(&d);
    for (int n = 0; n < DESKS; n++) {
        fill(&d.block, 6);
        for (int i = 0; i < STEPS; i++) {
            step_loose(&d, &c);
            if (i % 4 == 0)
                chain_loose(&d, &c);
        }
        c.sum = summed(c.sum, &d.block, 6);
    }
    free(d.block.bytes);
    return c;
}

static struct counts rubbish_stamps(void) {
    struct block b = {NULL, 0, {0}, {0}};
    struct counts c = {{0, 0, 0, 0, 0}, 0, 0, 14695981039346656037u};
    static const size_t sizes[] = {8, 128, 256, 256};
    for (int i = 0; i < 4; i++)
        lay(&b, sizes[i]);
    uint64_t *next = (uint64_t *)(void *)(b.bytes + b.from[0]);
    uint32_t *number = (uint32_t *)(void *)(b.bytes + b.from[1]);
    uint32_t *reader = (uint32_t *)(void *)(b.bytes + b.from[2]);
    uint32_t *writer = (uint32_t *)(void *)(b.bytes + b.from[3]);
    for (int n = 0; n < DESKS; n++) {
        fill(&b, 4);
        for (int i = 0; i < STEPS; i++) {
            struct asked a = draw_request(number);
            struct tuyenlomac_answer said = tuyenlomac_stamps_step_on(next, number, reader, writer, a.kind, a.job, a.cell);
            look_at_canaries(&b);
            hold(said.wakes == 0, "somebody wakes at the timestamp desk");
            count_answer(&c, said);
        }
        c.sum = summed(c.sum, &b, 4);
    }
    free(b.bytes);
    return c;
}

/* What a record must be, by the C library; -1 for an unknown word or letter. */
static int record_text(const struct record *r, char *text, size_t room) {
    static const char *const words[] = {"go", "wait", "back", "no", "wake"};
    unsigned long long line = r->line, number = r->number, last = r->last;
    if (r->letter == 0 && r->word > TUYENLOMAC_WAKE)
        return -1;
    if (r->letter == 0 && last != 0)
        return snprintf(text, room, "%llu\t%s\t%llu\t%llu\n", line, words[r->word], number, last);
    if (r->letter == 0)
        return snprintf(text, room, "%llu\t%s\t%llu\n", line, words[r->word], number);
    if (r->letter == TUYENLOMAC_BEGIN)
        return snprintf(text, room, "b\n");
    if (strchr("cakt", r->letter) != NULL)
        return snprintf(text, room, "%c\t%llu\n", r->letter, number);
    if (strchr("rwiu", r->letter) != NULL)
        return snprintf(text, room, "%c\t%llu\t%llu\n", r->letter, number, last);
    return -1;
}

/* Any numbers, of any length. */
static uint64_t draw_wide(void) {
    uint64_t high = draw(), low = draw();
    return (high << 32 | low) >> (draw() % 64);
}

/* Any letter, word and numbers; the field at fault is a valid one. */
static struct record draw_record(void) {
    uint32_t letter = draw(), any = draw();
    struct record r = {0, any % 6, 0, 0, (any >> 8) % 5};
    r.line = draw_wide();
    r.number = draw_wide();
    if (letter % 2 == 0)
        return r;
    r.letter = letter % 3 != 0 ? (uint8_t) "bcatrwiuk"[letter / 2 % 9] : (uint8_t)(letter >> 24 | 1);
    r.last = draw_wide();
    return r;
}

/* Writes a record from a place on into a buffer of that many bytes, at most 128: it is there, or is refused as it should be. Returns whether it
   was written. */
static int try_record(const struct record *r, size_t length, size_t at) {
    static struct block b;
    char text[128];
    if (b.count == 0)
        lay(&b, 128);
    uint8_t *buffer = b.bytes + b.from[0];
    memset(buffer, FILL, 128);
    struct tuyenlomac_written told = write_record(r, buffer, length, at);
    look_at_canaries(&b);
    int size = record_text(r, text, sizeof text);
    int fits = size >= 0 && at <= length && (size_t)size <= length - at;
    hold(fits || told.refusal == (size < 0 ? 1u : 15u), "a record is not refused as it should be");
    hold(!fits || told.refusal == 0, "a record is refused although there is room");
    size_t from = fits ? at : 0, end = fits ? at + (size_t)size : 0;
    hold(told.next == end && memcmp(buffer + from, text, end - from) == 0, "a record is not what it should be");
    hold(untouched(buffer, from) && untouched(buffer + end, 128 - end), "a record has changed a byte beside it");
    return fits;
}

/* Records of any numbers, words and letters, at any place of a buffer of any length; and the longest possible one. */
static uint64_t rubbish_records(void) {
    uint64_t written = 0;
    for (int n = 0; n < RECORDS; n++) {
        struct record r = draw_record();
        uint32_t length = draw() % 129, near = draw() % 64;
        uint64_t far = draw_wide();
        written += (uint64_t)try_record(&r, length, far % 8 != 0 ? near : (size_t)far);
    }
    struct record longest = {0, TUYENLOMAC_WAKE, UINT64_MAX, UINT64_MAX, UINT64_MAX};
    hold(try_record(&longest, 128, 60) && !try_record(&longest, 127, 60), "the longest record has not 68 bytes");
    return written;
}

static void put_counts(const char *name, const struct counts *c) {
    printf("%s", name);
    for (int i = 0; i < 5; i++)
        printf(" %llu", (unsigned long long)c->told[i]);
    printf(" chains %llu %llu sum %016llx ", (unsigned long long)c->chained, (unsigned long long)c->refused, (unsigned long long)c->sum);
}

static void rubbish(void) {
    struct counts locks = rubbish_locks(), stamps = rubbish_stamps();
    put_counts("locks", &locks);
    put_counts("stamps", &stamps);
    printf("records %llu\n", (unsigned long long)rubbish_records());
}

/* ---- empty: every call that takes a length, lent NULL and 0, as an empty std::vector may give them */

static void put_empty_judged(const char *text, uint8_t *order, size_t places) {
    struct tuyenlomac_judgement j = tuyenlomac_judge((const uint8_t *)text, text != NULL ? strlen(text) : 0, order, places);
    hold(j.from == 0 && j.length == 0, "a line is handed back where none is at fault");
    put_verdict(j.said, order);
}

/* A request and a line of a history. */
static void put_empty_lines(void) {
    struct tuyenlomac_line request = tuyenlomac_read_request(NULL, 0), history = tuyenlomac_read_history(NULL, 0);
    hold(request.kind + request.job + request.cell == 0 && history.kind + history.job + history.cell == 0, "no line says something");
    printf("%u\n%u\n", (unsigned)request.field, (unsigned)history.field);
}

/* The chain of a job over a list of no places; on this desk job 1 runs, 2 was sent back and 3 is not open. */
static void put_empty_chain(const struct tuyenlomac_locks *d, uint32_t job) {
    struct tuyenlomac_chain told = tuyenlomac_locks_chain(d, job, NULL, 0);
    hold(told.jobs == 0, "a chain stands in a list of no places");
    printf("%u\n", (unsigned)told.refusal);
}

/* Both records, from a place on of a buffer of no bytes; and an unknown letter and an unknown word. */
static void put_empty_records(size_t at) {
    struct tuyenlomac_written answer = tuyenlomac_write_answer(NULL, 0, at, 1, TUYENLOMAC_GO, 1, 0);
    struct tuyenlomac_written line = tuyenlomac_write_line(NULL, 0, at, TUYENLOMAC_BEGIN, 0, 0);
    struct tuyenlomac_written none = tuyenlomac_write_line(NULL, 0, at, 'x', 0, 0);
    hold(answer.next == 0 && line.next == 0 && none.next == 0, "a record stands in a buffer of no bytes");
    hold(tuyenlomac_write_answer(NULL, 0, at, 1, 5, 1, 0).refusal == TUYENLOMAC_UNKNOWN_KIND, "an unknown word is written");
    printf("%u\n%u\n%u\n", (unsigned)answer.refusal, (unsigned)line.refusal, (unsigned)none.refusal);
}

static void empty(void) {
    static struct desk d;
    uint8_t order[TUYENLOMAC_ORDER] = {0};
    put_empty_judged(NULL, order, TUYENLOMAC_ORDER);
    put_empty_judged("c\t1\n", NULL, 0);
    put_empty_judged(NULL, NULL, 0);
    put_empty_lines();
    hold(start(&d, 0, 1) == 0, "a start at 1 is refused");
    for (uint32_t job = 1; job <= 2; job++) { /* both ask for one cell, and the younger is sent back */
        step(&d, TUYENLOMAC_BEGIN, 0, 0);
        step(&d, TUYENLOMAC_WRITE, job, 5);
    }
    for (uint32_t job = 1; job <= 3; job++)
        put_empty_chain(&d.locks, job);
    put_empty_records(0);
    put_empty_records(1);
    put_empty_records(SIZE_MAX);
}

/* Runs a valid mode. */
static int run(const char *mode, long count) {
    if (strcmp(mode, "answers") == 0) answers(0);
    else if (strcmp(mode, "stamp_answers") == 0) answers(1);
    else if (strcmp(mode, "chain") == 0) chain();
    else if (strcmp(mode, "verdict") == 0) verdict();
    else if (strcmp(mode, "judge") == 0) judge();
    else if (strcmp(mode, "lines") == 0) lines();
    else if (strcmp(mode, "steps") == 0) steps();
    else if (strcmp(mode, "cases") == 0) cases();
    else if (strcmp(mode, "mix") == 0) mix(0, count);
    else if (strcmp(mode, "stamp_mix") == 0) mix(1, count);
    else if (strcmp(mode, "rubbish") == 0) rubbish();
    else if (strcmp(mode, "empty") == 0) empty();
    else return 0;
    return 1;
}

int main(int argc, char **argv) {
    if (argc < 2 || !run(argv[1], argc > 2 ? atol(argv[2]) : 1000000)) {
        fputs("usage: try answers|stamp_answers|chain|verdict|judge|lines|steps|cases|mix|stamp_mix|rubbish|empty [STEPS]\n", stderr);
        return 2;
    }
    hold(fflush(stdout) == 0 && !ferror(stdout), "cannot write");
    return 0;
}
