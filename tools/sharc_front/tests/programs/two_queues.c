/* A pipeline of two queues: squares are made from numbers, and sums from squares. */
#include <pthread.h>
#include <stdio.h>

#define CAP 5
#define COUNT 40
#define STOP (-1)

struct queue {
    int items[CAP];
    int head, len;
    pthread_mutex_t mutex;
    pthread_cond_t nonempty, nonfull;
};

static struct queue numbers, squares;

static void queue_init(struct queue *q)
{
    q->head = q->len = 0;
    pthread_mutex_init(&q->mutex, NULL);
    pthread_cond_init(&q->nonempty, NULL);
    pthread_cond_init(&q->nonfull, NULL);
}

static void queue_put(struct queue *q, int x)
{
    pthread_mutex_lock(&q->mutex);
    while (q->len == CAP)
        pthread_cond_wait(&q->nonfull, &q->mutex);
    q->items[(q->head + q->len++) % CAP] = x;
    pthread_cond_signal(&q->nonempty);
    pthread_mutex_unlock(&q->mutex);
}

static int queue_get(struct queue *q)
{
    int x;

    pthread_mutex_lock(&q->mutex);
    while (!q->len)
        pthread_cond_wait(&q->nonempty, &q->mutex);
    x = q->items[q->head];
    q->head = (q->head + 1) % CAP;
    q->len--;
    pthread_cond_signal(&q->nonfull);
    pthread_mutex_unlock(&q->mutex);
    return x;
}

static void *produce(void *arg)
{
    int n = *(const int *) arg;
    for (int i = 1; i <= n; i++)
        queue_put(&numbers, i);
    queue_put(&numbers, STOP);
    return NULL;
}

static void *square(void *arg)
{
    int x;
    (void) arg;
    while ((x = queue_get(&numbers)) != STOP)
        queue_put(&squares, x * x);
    queue_put(&squares, STOP);
    return NULL;
}

static void *sum(void *arg)
{
    long total = 0;
    for (int x = queue_get(&squares); x != STOP; x = queue_get(&squares))
        total += x;
    *(long *) arg = total;
    return NULL;
}

int main(void)
{
    pthread_t threads[3];
    int n = COUNT;
    long total = 0;

    queue_init(&numbers);
    queue_init(&squares);
    pthread_create(&threads[0], NULL, produce, &n);
    pthread_create(&threads[1], NULL, square, NULL);
    pthread_create(&threads[2], NULL, sum, &total);
    for (int i = 0; i < 3; i++)
        pthread_join(threads[i], NULL);
    printf("sum of squares up to %d is %ld\n", n, total);
    return 0;
}
