/* Makes a program's monotonic clock that of the processor's time of its thread, so that what other processes take doesn't count.
   bench/time_work.py loads it before bench_instants (LD_PRELOAD), which reads the clock by itself.

   gcc -shared -fPIC -O2 -o processor_clock.so processor_clock.c */
#define _GNU_SOURCE
#include <sys/syscall.h>
#include <time.h>
#include <unistd.h>

int clock_gettime(clockid_t clock, struct timespec *time) {
    return (int)syscall(SYS_clock_gettime, clock == CLOCK_MONOTONIC ? CLOCK_THREAD_CPUTIME_ID : clock, time);
}
