/* A pool of threads that run tasks, each a function with an argument. */
#include <pthread.h>
#include <stdio.h>
#include <stdlib.h>
#include <stdbool.h>

#define POOL 3
#define QSIZE 8

typedef void (*task_fn)(int);

typedef struct {
    task_fn fn;
    int arg;
} task_t;

typedef struct {
    task_t tasks[QSIZE];
    unsigned head, tail;
    bool closed;
    pthread_mutex_t mtx;
    pthread_cond_t not_empty;
    pthread_cond_t not_full;
} pool_t;

static pool_t pool = {
    .mtx = PTHREAD_MUTEX_INITIALIZER,
    .not_empty = PTHREAD_COND_INITIALIZER,
    .not_full = PTHREAD_COND_INITIALIZER,
};

static long squares, cubes;
static pthread_mutex_t acc_mtx = PTHREAD_MUTEX_INITIALIZER;

static void add_square(int n)
{
    pthread_mutex_lock(&acc_mtx);
    squares += (long) n * n;
    pthread_mutex_unlock(&acc_mtx);
}

static void add_cube(int n)
{
    pthread_mutex_lock(&acc_mtx);
    cubes += (long) n * n * n;
    pthread_mutex_unlock(&acc_mtx);
}

static void submit(task_fn fn, int arg)
{
    pthread_mutex_lock(&pool.mtx);
    while (pool.tail - pool.head == QSIZE)
        pthread_cond_wait(&pool.not_full, &pool.mtx);
    pool.tasks[pool.tail % QSIZE].fn = fn;
    pool.tasks[pool.tail % QSIZE].arg = arg;
    pool.tail++;
    pthread_cond_signal(&pool.not_empty);
    pthread_mutex_unlock(&pool.mtx);
}

static bool take(task_t *out)
{
    bool ok = false;

    pthread_mutex_lock(&pool.mtx);
    while (pool.head == pool.tail && !pool.closed)
        pthread_cond_wait(&pool.not_empty, &pool.mtx);
    if (pool.head != pool.tail) {
        *out = pool.tasks[pool.head++ % QSIZE];
        ok = true;
        pthread_cond_signal(&pool.not_full);
    }
    pthread_mutex_unlock(&pool.mtx);
    return ok;
}

static void *pool_main(void *unused)
{
    task_t t;

    (void) unused;
    while (take(&t))
        t.fn(t.arg);
    return NULL;
}

int main(int argc, char **argv)
{
    pthread_t th[POOL];
    int n = argc > 1 ? atoi(argv[1]) : 20;
    task_fn fns[] = { add_square, add_cube };

    for (int i = 0; i < POOL; i++)
        pthread_create(&th[i], NULL, pool_main, NULL);
    for (int i = 1; i <= n; i++)
        submit(fns[i % 2], i);
    pthread_mutex_lock(&pool.mtx);
    pool.closed = true;
    pthread_cond_broadcast(&pool.not_empty);
    pthread_mutex_unlock(&pool.mtx);
    for (int i = 0; i < POOL; i++)
        pthread_join(th[i], NULL);
    printf("squares %ld cubes %ld\n", squares, cubes);
    return 0;
}
