/* Lends bytes to a call so that a wrong access traps: they are read-only (those of lend_room are not), and one page that may not be touched
   lies right before or right after them. A write into them, and an access beyond them into such a page, ends the driver with status 3 and a
   line on standard error. On their other side they have no such page: so lend at either side in turn.

   Define LENT_DRIVER, the driver's name in that line, before this header, which goes before all others. */
#ifndef LENT_H
#define LENT_H

#define _DEFAULT_SOURCE /* MAP_ANONYMOUS, sigaction */
#include <signal.h>
#include <stddef.h>
#include <stdint.h>
#include <stdio.h>
#include <stdlib.h>
#include <string.h>
#include <sys/mman.h>
#include <unistd.h>

/* Where lent bytes lie: right after the page that may not be touched, or right before the other one. */
typedef enum { LENT_AFTER, LENT_BEFORE } lent_side;

/* Lent bytes, and the pages about them. */
typedef struct { void *bytes; uint8_t *pages; size_t room; } lent;

/* It is the call that trapped and no output, so that what was answered can be sent: the request is the first without an answer. */
static void lent_trapped(int number) {
    static const char text[] = LENT_DRIVER ": trapped: lent bytes were written, or memory outside them touched\n";
    (void)number;
    fflush(stdout);
    if (write(STDERR_FILENO, text, sizeof text - 1) < 0) {
        _exit(4);
    }
    _exit(3);
}

static void lent_need(int good) {
    if (!good) {
        perror(LENT_DRIVER);
        exit(2);
    }
}

/* To be called once, before anything is lent. */
static void lent_start(void) {
    struct sigaction action;
    memset(&action, 0, sizeof action);
    action.sa_handler = lent_trapped;
    lent_need(sigaction(SIGSEGV, &action, NULL) == 0 && sigaction(SIGBUS, &action, NULL) == 0);
}

/* Pages that were given back, each a page for bytes between two that may not be touched. They are lent again: to make new ones takes long. */
enum { LENT_KEPT = 2 };
static uint8_t *lent_kept[LENT_KEPT];

/* A kept place that holds pages, or one that holds none; NULL where there is none, or where they are not three pages. */
static uint8_t **lent_place(size_t room, int full) {
    for (int i = 0; i < LENT_KEPT && room == 3 * (size_t)sysconf(_SC_PAGESIZE); i++) {
        if ((lent_kept[i] != NULL) == full) {
            return &lent_kept[i];
        }
    }
    return NULL;
}

/* Lends so many bytes that may be written. None of them are lent as NULL, or as a pointer at which nothing may be touched. */
static lent lend_room(size_t length, lent_side side) {
    size_t page = (size_t)sysconf(_SC_PAGESIZE);
    size_t inner = (length + page - 1) / page * page;
    lent made = {NULL, NULL, inner + 2 * page};
    uint8_t **kept = lent_place(made.room, 1);
    if (kept != NULL) {
        made.pages = *kept;
        *kept = NULL;
    } else {
        made.pages = mmap(NULL, made.room, PROT_NONE, MAP_PRIVATE | MAP_ANONYMOUS, -1, 0);
        lent_need(made.pages != MAP_FAILED);
    }
    if (length == 0) {
        made.bytes = side == LENT_AFTER ? NULL : made.pages + page;
        return made;
    }
    made.bytes = made.pages + page + (side == LENT_AFTER ? 0 : inner - length);
    lent_need(mprotect(made.pages + page, inner, PROT_READ | PROT_WRITE) == 0);
    return made;
}

/* Lends a copy of the bytes, to be read. */
static lent lend(const void *bytes, size_t length, lent_side side) {
    size_t page = (size_t)sysconf(_SC_PAGESIZE);
    lent made = lend_room(length, side);
    if (length != 0) {
        memcpy(made.bytes, bytes, length);
        lent_need(mprotect(made.pages + page, made.room - 2 * page, PROT_READ) == 0);
    }
    return made;
}

static void give_back(lent given) {
    uint8_t **kept = lent_place(given.room, 0);
    if (kept != NULL) {
        *kept = given.pages;
    } else {
        lent_need(munmap(given.pages, given.room) == 0);
    }
}

#endif
