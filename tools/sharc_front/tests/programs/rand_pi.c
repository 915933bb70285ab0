/* Estimates pi by throwing darts; each thread has its own seed. */
#include <pthread.h>
#include <stdio.h>
#include <stdlib.h>
#include <errno.h>
#include <string.h>
#include <time.h>

#define THREADS 4
#define DARTS 500
#define SIDE 1000

typedef struct {
    unsigned int seed;
    int darts;
    int inside;
} share;

static int throw_one(unsigned int *seed)
{
    int x = rand_r(seed) % SIDE;
    int y = rand_r(seed) % SIDE;
    return x * x + y * y < SIDE * SIDE;
}

static void *thrower(void *arg)
{
    share *s = arg;
    int i = s->darts;

    do {
        if (throw_one(&s->seed))
            s->inside++;
    } while (--i > 0);
    pthread_exit(NULL);
}

int main(void)
{
    pthread_t th[THREADS];
    share shares[THREADS];
    int rc, inside = 0;
    time_t began = time(NULL);

    for (int i = 0; i < THREADS; i++) {
        memset(&shares[i], 0, sizeof(share));
        shares[i].seed = 17u * i + 1;
        shares[i].darts = DARTS;
        rc = pthread_create(&th[i], NULL, thrower, &shares[i]);
        if (rc != 0) {
            fprintf(stderr, "pthread_create: %s (errno %d)\n", strerror(rc), errno);
            exit(EXIT_FAILURE);
        }
    }
    for (int i = 0; i < THREADS; i++) {
        pthread_join(th[i], NULL);
        inside += shares[i].inside;
    }
    printf("inside %d of %d\n", inside, THREADS * DARTS);
    printf("pi is about %d.%03d\n", 4 * inside / (THREADS * DARTS), 4000 * inside / (THREADS * DARTS) % 1000);
    if (time(NULL) - began > 3600)
        printf("that took long\n");
    return 0;
}
