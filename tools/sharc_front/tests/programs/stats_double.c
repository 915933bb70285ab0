/* Mean and variance of samples that threads make, in double. */
#include <pthread.h>
#include <stdio.h>

#define T 3
#define N 100

static double sum, sumsq;
static pthread_mutex_t m = PTHREAD_MUTEX_INITIALIZER;

static void *sample(void *p)
{
    int seed = *(int *) p;
    for (int i = 0; i < N; i++) {
        seed = (seed * 421 + 1663) % 7875;
        double x = seed / 7875.0;
        pthread_mutex_lock(&m);
        sum += x;
        sumsq += x * x;
        pthread_mutex_unlock(&m);
    }
    return NULL;
}

int main(void)
{
    pthread_t t[T];
    int seeds[T] = { 1, 2, 3 };

    for (int i = 0; i < T; i++)
        pthread_create(&t[i], NULL, sample, &seeds[i]);
    for (int i = 0; i < T; i++)
        pthread_join(t[i], NULL);
    double mean = sum / (T * N);
    printf("mean %d\n", (int) (mean * 1000));
    return 0;
}
