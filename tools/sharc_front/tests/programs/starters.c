/* Threads of two kinds, started through a variable; main ends as a thread. */
#include <pthread.h>
#include <stdio.h>

#define WORKERS 4

static pthread_mutex_t lock = PTHREAD_MUTEX_INITIALIZER;
static long even_sum, odd_sum;
static int numbers[WORKERS] = { 3, 4, 5, 6 };

static void *even(void *arg)
{
    int *n = arg;

    pthread_mutex_lock(&lock);
    even_sum += *n;
    pthread_mutex_unlock(&lock);
    return NULL;
}

static void *odd(void *arg)
{
    int *n = arg;

    pthread_mutex_lock(&lock);
    odd_sum += *n * 10;
    pthread_mutex_unlock(&lock);
    if (*n > 4)
        pthread_exit(NULL);
    pthread_mutex_lock(&lock);
    odd_sum++;
    pthread_mutex_unlock(&lock);
    return NULL;
}

int main(void)
{
    pthread_t threads[WORKERS];
    int i;

    for (i = 0; i < WORKERS; i++) {
        void *(*start)(void *) = numbers[i] % 2 == 0 ? &even : &odd;

        if (pthread_create(&threads[i], NULL, start, &numbers[i]) != 0)
            return 1;
    }
    for (i = 0; i < WORKERS; i++)
        pthread_join(threads[i], NULL);
    printf("%ld %ld\n", even_sum, odd_sum);
    pthread_exit(NULL);
}
