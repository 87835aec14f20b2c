/* A night at the lock desk, in C: reads request lines on standard input, and prints what the program answers prints for them.

       cc -O2 -Iinclude library/night.c target/staticlib/libtuyenlomac.a -o target/night
       target/night < examples/night.requests */
#define _POSIX_C_SOURCE 200809L /* for getline */
#include <stdio.h>
#include <stdlib.h>
#include <sys/types.h>

#include "tuyenlomac.h"

enum { LINES = 1000000 }; /* the first so many lines are answered, the rest is ignored */

/* Writes one answer record to standard output. It fits, since no line has a number above LINES. */
static void put(uint64_t line, uint32_t word, uint32_t number, uint8_t field) {
    uint8_t record[TUYENLOMAC_RECORD] = {0};
    struct tuyenlomac_written told = tuyenlomac_write_answer(record, sizeof record, 0, line, word, number, field);
    fwrite(record, 1, told.next, stdout);
}

/* Answers one line. The line ends in its newline; if the last line lacks it, the reader reports a fault. */
static void answer(struct tuyenlomac_locks *desk, uint64_t line, const char *text, size_t length) {
    struct tuyenlomac_wakes wakes = {0};
    struct tuyenlomac_line asked = tuyenlomac_read_request((const uint8_t *)text, length);
    if (asked.field != 0) { /* a bad line; the desk does not see it */
        put(line, TUYENLOMAC_NO, TUYENLOMAC_BAD_LINE, asked.field);
        return;
    }
    struct tuyenlomac_answer said = tuyenlomac_locks_step(desk, asked.kind, asked.job, asked.cell, &wakes);
    put(line, said.word, said.number, 0);
    /* The order matters to a program that keeps what the cells hold. After BACK the job's locks are free already: take back here what it did;
       then tell the jobs that go on, as below; then, in a program with threads, free the mutex. For a give-up, take back before the step.
       library/count.c is such a program. */
    for (size_t i = 0; i < said.wakes; i++) /* the jobs that waited and go on now */
        put(line, TUYENLOMAC_WAKE, wakes.job[i], 0);
}

int main(void) {
    static struct tuyenlomac_locks desk; /* one desk for the whole night, in one place */
    char *text = NULL;                   /* getline makes it as long as the line */
    size_t room = 0;
    ssize_t length;

    setvbuf(stdout, NULL, _IOLBF, BUFSIZ); /* so each answer is written at once, through a pipe too */
    tuyenlomac_locks_start(&desk, 1);      /* only 0 is refused */
    for (uint64_t line = 1; line <= LINES && (length = getline(&text, &room, stdin)) != -1; line++)
        answer(&desk, line, text, (size_t)length);
    free(text);
    if (ferror(stdin) || fflush(stdout) != 0 || ferror(stdout)) {
        fputs("night: cannot read or write\n", stderr);
        return 1;
    }
    return 0;
}
