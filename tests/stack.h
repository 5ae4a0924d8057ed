/* Runs calls on a thread whose whole stack is the size that zimarolfo.h names. */
#ifndef STACK_H
#define STACK_H

/* Before all other headers, for the sizes of stacks. */
#define _POSIX_C_SOURCE 200809L
#include "../host/zimarolfo.h"

#include <pthread.h>
#include <stdio.h>
#include <stdlib.h>

static unsigned calls, failures;

/* On the stack of the size in bytes that is given, if one is; what the test's main returns. */
static inline int on_small_stack(const char *name, int arguments, char **argument,
                                 void *(*all_calls)(void *))
{
    size_t size = arguments > 1 ? strtoul(argument[1], NULL, 10) : ZIMAROLFO_STACK;
    pthread_attr_t attributes;
    pthread_t thread;
    if (pthread_attr_init(&attributes) != 0 || pthread_attr_setstacksize(&attributes, size) != 0 ||
        pthread_create(&thread, &attributes, all_calls, NULL) != 0 || pthread_join(thread, NULL) != 0) {
        fprintf(stderr, "%s: no thread with %zu bytes of stack\n", name, size);
        return 3;
    }
    if (failures == 0)
        printf("%s: %u calls on a thread with %zu bytes of stack\n", name, calls, size);
    return failures == 0 ? 0 : 1;
}

#endif
