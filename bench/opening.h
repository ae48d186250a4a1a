/* Functions that bench/opening.c and bench/opening_lmdb.c share: the time, and the memory that this
   process uses. */
#ifndef OPENING_H
#define OPENING_H

#include <stdio.h>
#include <stdlib.h>
#include <string.h>
#include <time.h>

/* The time in microseconds. */
static inline double now(void)
{
    struct timespec time;
    clock_gettime(CLOCK_MONOTONIC, &time);
    return (double)time.tv_sec * 1e6 + (double)time.tv_nsec / 1e3;
}

/* The value of a line of /proc/self/status. VmRSS is the memory that the process uses. VmHWM is the
   most memory that it has used. */
static inline long kilobytes(const char *name)
{
    char line[200];
    long found = -1;
    size_t count = strlen(name);
    FILE *file = fopen("/proc/self/status", "r");
    while (file && fgets(line, sizeof line, file))
        if (strncmp(line, name, count) == 0 && line[count] == ':')
            found = atol(line + count + 1);
    if (file)
        fclose(file);
    return found;
}

#endif
