/* How deep a call goes: it runs on a thread whose stack is a block that was filled with one byte before. */
#include <pthread.h>
#include <stdlib.h>
#include <string.h>

#include "others.h"

enum { SIZE = 8 << 20, FILL = 0xa5 };

struct job {
    void (*call)(void *);
    void *argument;
};

static void *run(void *given) {
    struct job *job = given;
    job->call(job->argument);
    return NULL;
}

size_t stack_used(void (*call)(void *), void *argument) {
    struct job job = {call, argument};
    unsigned char *stack = aligned_alloc(4096, SIZE);
    pthread_attr_t attributes;
    pthread_t thread;
    memset(stack, FILL, SIZE);
    pthread_attr_init(&attributes);
    pthread_attr_setstack(&attributes, stack, SIZE);
    if (pthread_create(&thread, &attributes, run, &job) != 0) abort();
    pthread_join(thread, NULL);
    size_t untouched = 0;
    while (untouched < SIZE && stack[untouched] == FILL) untouched++;
    free(stack);
    return SIZE - untouched;
}
