#include <pthread.h>
#include <stdio.h>
#include <stdlib.h>
#include <string.h>
#include <unistd.h>
#define MAXJ 16
typedef void (*job_fn)(void *);
typedef struct job { job_fn fn; void *arg; struct job *next; } job;
typedef struct { job *head, *tail; int njobs; int stop; pthread_mutex_t mu; pthread_cond_t cv; pthread_t workers[3]; } pool;
typedef struct { int n; int *result; } fib_arg;
static pthread_mutex_t rmu = PTHREAD_MUTEX_INITIALIZER; static int results[MAXJ];
static int fib(int n) { return n < 2 ? n : fib(n - 1) + fib(n - 2); }
static void do_fib(void *p) { fib_arg *a = p; int r = fib(a->n); pthread_mutex_lock(&rmu); *a->result = r; pthread_mutex_unlock(&rmu); free(a); }
static void *worker(void *p)
{
    pool *pl = p;
    for (;;) {
        pthread_mutex_lock(&pl->mu);
        while (!pl->head && !pl->stop) pthread_cond_wait(&pl->cv, &pl->mu);
        if (!pl->head) { pthread_mutex_unlock(&pl->mu); break; }
        job *j = pl->head; pl->head = j->next; if (!pl->head) pl->tail = NULL; pl->njobs--;
        pthread_mutex_unlock(&pl->mu);
        j->fn(j->arg); free(j);
    }
    return NULL;
}
static void add(pool *pl, job_fn fn, void *arg)
{
    job *j = calloc(1, sizeof(job)); j->fn = fn; j->arg = arg;
    pthread_mutex_lock(&pl->mu);
    if (pl->tail) pl->tail->next = j; else pl->head = j;
    pl->tail = j; pl->njobs++;
    pthread_cond_signal(&pl->cv);
    pthread_mutex_unlock(&pl->mu);
}
int main(void)
{
    static pool pl; long sum = 0;
    memset(&pl, 0, sizeof pl); pthread_mutex_init(&pl.mu, NULL); pthread_cond_init(&pl.cv, NULL);
    for (int i = 0; i < 3; i++) pthread_create(&pl.workers[i], NULL, worker, &pl);
    for (int i = 0; i < MAXJ; i++) { fib_arg *a = malloc(sizeof *a); a->n = i; a->result = &results[i]; add(&pl, do_fib, a); }
    pthread_mutex_lock(&pl.mu); pl.stop = 1; pthread_cond_broadcast(&pl.cv); pthread_mutex_unlock(&pl.mu);
    for (int i = 0; i < 3; i++) pthread_join(pl.workers[i], NULL);
    for (int i = 0; i < MAXJ; i++) sum += results[i];
    printf("%ld\n", sum);
    return 0;
}
