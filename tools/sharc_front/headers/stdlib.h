#ifndef SHARC_FRONT_STDLIB_H
#define SHARC_FRONT_STDLIB_H
#include <stddef.h>
#define EXIT_SUCCESS 0
#define EXIT_FAILURE 1
#define RAND_MAX 2147483647
#define abort() __sharc_stop("abort()")
static int abs(int n) { return n < 0 ? -n : n; }
static long labs(long n) { return n < 0 ? -n : n; }
static long llabs(long n) { return n < 0 ? -n : n; }
static inline long atol(const char *s)
{
    unsigned short n = 0;
    int negative = 0;
    long value = 0;
    while (s[n] == ' ' || s[n] >= '\t' && s[n] <= '\r')
        n++;
    if (s[n] == '-')
        negative = 1;
    if (s[n] == '-' || s[n] == '+')
        n++;
    while (s[n] >= '0' && s[n] <= '9') {
        value = value * 10 + (negative ? '0' - s[n] : s[n] - '0');
        n++;
    }
    return value;
}
#define atoi(s) ((int) atol(s))
#define atoll(s) atol(s)
/* of base 10 alone: for another one there is no such function */
#define strtol(s, end, base) __sharc_strtol_##base(s, end)
static inline long __sharc_strtol_10(const char *s, void *none) { return atol(s); }
/* as in glibc */
static int rand_r(unsigned int *seed)
{
    unsigned int next = *seed;
    int result;

    next *= 1103515245;
    next += 12345;
    result = (unsigned int) (next / 65536) % 2048;
    next *= 1103515245;
    next += 12345;
    result <<= 10;
    result ^= (unsigned int) (next / 65536) % 1024;
    next *= 1103515245;
    next += 12345;
    result <<= 10;
    result ^= (unsigned int) (next / 65536) % 1024;
    *seed = next;
    return result;
}
#endif
