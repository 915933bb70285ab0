/* Accounts in an array, transfers by tellers, an auditor that takes all locks in order. */
#include <pthread.h>
#include <stdio.h>
#include <stdlib.h>
#include <unistd.h>
#include <stdbool.h>

#define NACC 5
#define NTELL 3
#define NOPS 100

struct account {
    char owner[16];
    long long balance;
    struct {
        int in, out;
    } moves;
    pthread_mutex_t mu;
};

static struct account acc[NACC] = {
    { "ada", 100, { 0, 0 }, PTHREAD_MUTEX_INITIALIZER },
    { "bob", 200, { 0, 0 }, PTHREAD_MUTEX_INITIALIZER },
    { "cyd", 300, { 0, 0 }, PTHREAD_MUTEX_INITIALIZER },
    { "dee", 400, { 0, 0 }, PTHREAD_MUTEX_INITIALIZER },
    { "eve", 500, { 0, 0 }, PTHREAD_MUTEX_INITIALIZER },
};
static volatile bool audit_failed;
static int running = NTELL;
static pthread_mutex_t running_mu = PTHREAD_MUTEX_INITIALIZER;

static bool transfer(int from, int to, long long amount)
{
    struct account *f = &acc[from], *t = &acc[to];
    bool done;

    if (from == to)
        return false;
    pthread_mutex_lock(from < to ? &f->mu : &t->mu);
    pthread_mutex_lock(from < to ? &t->mu : &f->mu);
    if ((done = f->balance >= amount)) {
        f->balance -= amount, f->moves.out++;
        t->balance += amount, t->moves.in++;
    }
    pthread_mutex_unlock(&f->mu);
    pthread_mutex_unlock(&t->mu);
    return done;
}

static void *teller(void *p)
{
    unsigned seed = *(unsigned *) p;

    for (int i = 0; i < NOPS; i++) {
        seed = seed * 1103515245 + 12345;
        int a = (seed >> 16) % NACC, b = (seed >> 20) % NACC;
        transfer(a, b, seed % 50);
    }
    pthread_mutex_lock(&running_mu);
    running--;
    pthread_mutex_unlock(&running_mu);
    return NULL;
}

static void *auditor(void *p)
{
    int rounds = 0, go;

    do {
        long long sum = 0;
        for (int i = 0; i < NACC; i++)
            pthread_mutex_lock(&acc[i].mu);
        for (int i = 0; i < NACC; i++)
            sum += acc[i].balance;
        for (int i = NACC - 1; i >= 0; i--)
            pthread_mutex_unlock(&acc[i].mu);
        if (sum != 1500)
            audit_failed = true;
        pthread_mutex_lock(&running_mu);
        go = running;
        pthread_mutex_unlock(&running_mu);
        usleep(100);
        rounds++;
    } while (go > 0);
    *(int *) p = rounds;
    return NULL;
}

int main(void)
{
    pthread_t tellers[NTELL], aud;
    unsigned seeds[NTELL] = { 11, 22, 33 };
    int rounds = 0;
    long long total = 0;

    pthread_create(&aud, NULL, auditor, &rounds);
    for (int i = 0; i < NTELL; i++)
        pthread_create(&tellers[i], NULL, teller, &seeds[i]);
    for (int i = 0; i < NTELL; i++)
        pthread_join(tellers[i], NULL);
    pthread_join(aud, NULL);
    for (const struct account *a = acc; a < acc + NACC; a++)
        total += a->balance;
    printf("total %lld, audit %s\n", total, audit_failed ? "failed" : "passed");
    printf("%d\n", rounds > 0);
    return audit_failed ? 1 : 0;
}
