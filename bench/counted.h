/* The counts of counted.c, for a program that requests them. */
#ifndef COUNTED_H
#define COUNTED_H

enum count { WRITES, BYTES, SYNCS, READS, PROTECTIONS, COUNTS };

void counted_now(long of_thread[COUNTS], long of_all[COUNTS]);

#endif
