/* How much of its stack a thread takes: the stack is filled beforehand, and what differs afterwards was touched. */
#ifndef BENCH_TOUCHED_H
#define BENCH_TOUCHED_H

#include <pthread.h>
#include <stdlib.h>
#include <string.h>

/* Below the stack there is as much room again, filled too, so that a thread that takes too much is seen and harms nothing. */
enum { STACK = 65536, ROOM = 2 * STACK, FILL = 0xA5 };

/* What an exported function may take, the thread's own among it, and what reading a line may. */
enum { ALLOWED = 16384 };

/* The bytes that a thread has touched, more than STACK where it went over its stack; *answer is what its work answers. */
static size_t touched(void *(*work)(void *), void *argument, void **answer) {
    unsigned char *room = NULL;
    pthread_attr_t attributes;
    pthread_t thread;
    size_t untouched = 0;
    if (posix_memalign((void **)&room, 4096, ROOM) != 0) {
        exit(2);
    }
    memset(room, FILL, ROOM);
    pthread_attr_init(&attributes);
    if (pthread_attr_setstack(&attributes, room + ROOM - STACK, STACK) != 0 || pthread_create(&thread, &attributes, work, argument) != 0) {
        exit(2);
    }
    pthread_join(thread, answer);
    pthread_attr_destroy(&attributes);
    while (untouched < ROOM && room[untouched] == FILL) {
        untouched++;
    }
    free(room);
    return ROOM - untouched;
}

#endif
