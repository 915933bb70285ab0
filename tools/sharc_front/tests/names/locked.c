#include <assert.h>
#include <pthread.h>
#include <stdlib.h>
#include "sharc_marks.h"

struct account {
    pthread_mutex_t lock;
    long SHARC_LOCKED(lock) balance;
};

static struct { pthread_mutex_t lock; int SHARC_LOCKED(lock) total; } bank = { PTHREAD_MUTEX_INITIALIZER, 0 };
static struct account accounts[2];

static void put(struct account *to, long amount)
{
    pthread_mutex_lock(&to->lock);
    to->balance += amount;
    pthread_mutex_unlock(&to->lock);
}

static void *audit(void *arg)
{
    (void) arg;
    bank.total++;
    return NULL;
}

static void *peek(void *arg)
{
    struct account *from = arg;
    put(from, 3);
    if (from->balance > 0)
        exit(1);
    return NULL;
}

static void *stop(void *arg)
{
    (void) arg;
    exit(3);
}

static void *claim(void *arg)
{
    long n = (long) arg;
    assert(n > 5);
    return NULL;
}

int main(void)
{
    pthread_t t[4];

    pthread_create(&t[0], NULL, audit, NULL);
    pthread_create(&t[1], NULL, peek, &accounts[1]);
    pthread_create(&t[2], NULL, stop, NULL);
    pthread_create(&t[3], NULL, claim, (void *) 4L);
    return 0;
}
