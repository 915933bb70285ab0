/* Sieve of Eratosthenes in a bit set; each thread strikes out the multiples of some primes. */
#include <pthread.h>
#include <stdio.h>
#include <stdint.h>
#include <string.h>

#define LIMIT 1000
#define WORDS ((LIMIT + 31) / 32)
#define NTHREADS 3

static uint32_t composite[WORDS];
static pthread_mutex_t word_lock[WORDS];
static pthread_mutex_t next_lock = PTHREAD_MUTEX_INITIALIZER;
static unsigned next = 2;

static inline void set_bit(unsigned n)
{
    pthread_mutex_lock(&word_lock[n >> 5]);
    composite[n >> 5] |= 1u << (n & 31);
    pthread_mutex_unlock(&word_lock[n >> 5]);
}

static inline int test_bit(unsigned n)
{
    int r;
    pthread_mutex_lock(&word_lock[n / 32]);
    r = (composite[n / 32] >> (n % 32)) & 1;
    pthread_mutex_unlock(&word_lock[n / 32]);
    return r;
}

static unsigned take_next(void)
{
    unsigned n;

    pthread_mutex_lock(&next_lock);
    n = next++;
    pthread_mutex_unlock(&next_lock);
    return n;
}

static void *sieve(void *arg)
{
    unsigned *struck = arg, n;

    while ((n = take_next()) * n < LIMIT) {
        if (test_bit(n))
            continue;
        for (unsigned m = n * n; m < LIMIT; m += n) {
            set_bit(m);
            ++*struck;
        }
    }
    return NULL;
}

static int popcount(uint32_t w)
{
    int c = 0;
    for (; w; w &= w - 1)
        c++;
    return c;
}

int main(void)
{
    pthread_t t[NTHREADS];
    unsigned struck[NTHREADS];
    int primes = 0, bits = 0;
    uint64_t digest = 14695981039346656037ULL;

    memset(struck, 0, sizeof struck);
    for (int i = 0; i < WORDS; i++)
        pthread_mutex_init(&word_lock[i], NULL);
    for (int i = 0; i < NTHREADS; i++)
        pthread_create(&t[i], NULL, sieve, struck + i);
    for (int i = 0; i < NTHREADS; i++)
        pthread_join(t[i], NULL);
    for (unsigned n = 2; n < LIMIT; n++)
        if (!test_bit(n)) {
            primes++;
            digest = (digest ^ n) * 1099511628211ULL;
        }
    for (int i = 0; i < WORDS; i++)
        bits += popcount(composite[i]);
    printf("%d primes, %d bits, digest %d\n", primes, bits, (int) (digest >> 40));
    return 0;
}
