/* The faults that the variable FAULT names; without it there is none. */
#ifndef FAULTS_H
#define FAULTS_H

#include <stdbool.h>
#include <stdlib.h>
#include <string.h>

/* No fault's name is a part of another's. */
static inline bool fault(const char *name)
{
    const char *wanted = getenv("FAULT");
    return wanted != NULL && strstr(wanted, name) != NULL;
}

#endif
