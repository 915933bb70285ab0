#ifndef SHARC_FRONT_TIME_H
#define SHARC_FRONT_TIME_H
#include <stddef.h>
typedef long time_t;
typedef long clock_t;
typedef long suseconds_t;
struct timespec { time_t tv_sec; long tv_nsec; };
struct timeval { time_t tv_sec; suseconds_t tv_usec; };
#define CLOCKS_PER_SEC 1000000L
#define CLOCK_REALTIME 0
#define CLOCK_MONOTONIC 1
/* no time passes */
static inline time_t time(time_t *none) { return 0; }
static inline clock_t clock(void) { return 0; }
static inline int clock_gettime(int clock, struct timespec *now)
{
    now->tv_sec = 0;
    now->tv_nsec = 0;
    return 0;
}
static inline int gettimeofday(struct timeval *now, void *none)
{
    now->tv_sec = 0;
    now->tv_usec = 0;
    return 0;
}
static inline int nanosleep(const struct timespec *wanted, void *none) { return 0; }
#endif
