/* arrival.c: reads a row section from a pipe, in pieces as they come, and says how many rows are whole so far.
 *
 * A child process writes the section of example.c in pieces that end anywhere, and each only when the one before was read, so that the
 * text printed is always the same. No byte of the section is kept: all that is remembered is the reader. Beside C11 this program needs
 * POSIX, for the pipes and the process; c/run.sh builds it and compares what it prints. */
#define _POSIX_C_SOURCE 200809L
#include <stdio.h>
#include <stdlib.h>
#include <sys/types.h>
#include <sys/wait.h>
#include <unistd.h>

#include "adtg.h"
#include "adtg_text.h"

_Static_assert(sizeof(adtg_reader) == 120, "a reader has 120 bytes");

/* A four-byte integer, and a chapter with child id 7 whose rows have one byte. */
static const uint8_t schema[] = {0x02, 0x03, 0x00, 0x88, 0x01, 0x00, 0x07, 0x01, 0x11, 0x00};

static const uint8_t section[] = {
    0x07, 0x05, 0x00, 0x00, 0x00,                   /* a parent row */
    0x87, 0x07, 0x00, 0x00, 0x00, 0x2A,             /* a child row */
    0x8A, 0x07, 0x00, 0x00, 0x00, 0x80, 0x00, 0x2B, /* and its change */
    0x07, 0x06, 0x00, 0x00, 0x00,                   /* another parent row */
    0x0F,
};

/* The sizes of the pieces, together those of the section. */
static const size_t pieces[] = {3, 4, 5, 1, 7, 4, 1};

enum { PIECES = sizeof pieces / sizeof pieces[0] };

static void must(int holds, const char *what)
{
    if (!holds) {
        fprintf(stderr, "arrival: no %s\n", what);
        exit(1);
    }
}

/* The child: writes each piece, and waits until it was read. */
static void write_pieces(int to, int turn)
{
    size_t at = 0;
    for (size_t i = 0; i < PIECES; i++) {
        char byte;
        must(write(to, section + at, pieces[i]) == (ssize_t)pieces[i], "write");
        at += pieces[i];
        must(read(turn, &byte, 1) == 1, "turn");
    }
    must(at == sizeof section, "whole section");
}

/* Prints what a reader answers; 0 where it refuses. */
static int print(adtg_fed fed)
{
    if (fed.code != 0) {
        char text[ADTG_TEXT_SIZE];
        adtg_describe(adtg_failure_of(fed), text, sizeof text);
        printf("%s\n", text);
        return 0;
    }
    printf("%s: %llu\n", fed.progress == ADTG_COMPLETE ? "rows" : "whole rows so far", (unsigned long long)fed.first);
    return 1;
}

int main(void)
{
    int data[2], turn[2], ended;
    must(pipe(data) == 0 && pipe(turn) == 0, "pipe");
    pid_t child = fork();
    must(child >= 0, "process");
    if (child == 0) {
        close(data[0]);
        close(turn[1]);
        write_pieces(data[1], turn[0]);
        return 0;
    }
    close(data[1]);
    close(turn[0]);

    adtg_reader reader = adtg_first_reader();
    uint8_t fragment[64];
    ssize_t size;
    size_t total = 0;
    int accepted = 1;
    while (accepted && (size = read(data[0], fragment, sizeof fragment)) > 0) {
        total += (size_t)size;
        printf("after %zu bytes, ", total);
        accepted = print(adtg_feed(schema, sizeof schema, &reader, fragment, (size_t)size));
        must(write(turn[1], "", 1) == 1, "turn");
    }

    /* The pipe is at its end, and so is the section: where this succeeds, every row of it is sound. */
    printf("at the end, ");
    accepted = print(adtg_close(schema, sizeof schema, &reader));
    close(data[0]);
    close(turn[1]);
    must(waitpid(child, &ended, 0) == child, "child");
    return accepted && ended == 0 ? 0 : 1;
}
