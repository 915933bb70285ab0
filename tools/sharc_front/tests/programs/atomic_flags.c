/* Counters that are atomic, and a spin lock of compare and exchange. */
#include <pthread.h>
#include <stdatomic.h>
#include <stdio.h>
#include <sched.h>

#define THREADS 4
#define ROUNDS 50

static atomic_int tickets = 0;
static _Atomic unsigned done;
static atomic_int spin;
static long guarded;

static void spin_lock(atomic_int *l)
{
    int expected = 0;
    while (!atomic_compare_exchange_weak(l, &expected, 1)) {
        expected = 0;
        sched_yield();
    }
}

static void spin_unlock(atomic_int *l)
{
    atomic_store(l, 0);
}

static void *work(void *arg)
{
    int own = 0;

    (void) arg;
    for (int i = 0; i < ROUNDS; i++) {
        int t = atomic_fetch_add(&tickets, 1);
        spin_lock(&spin);
        guarded += t;
        spin_unlock(&spin);
        own++;
    }
    done += own;
    return NULL;
}

int main(void)
{
    pthread_t t[THREADS];

    for (int i = 0; i < THREADS; i++)
        pthread_create(&t[i], NULL, work, NULL);
    for (int i = 0; i < THREADS; i++)
        pthread_join(t[i], NULL);
    printf("%d tickets, %u done, guarded %ld\n", atomic_load(&tickets), done, guarded);
    return 0;
}
