/* A table with many readers and one writer, by a count of readers. */
#include <pthread.h>
#include <stdio.h>
#include <stdlib.h>

#define SLOTS 32
#define READERS 4
#define LOOKUPS 200
#define UPDATES 50

typedef struct rwlock {
    pthread_mutex_t m;
    pthread_cond_t ok;
    int readers;
    int writing;
} rwlock_t;

typedef struct table {
    rwlock_t lock;
    int keys[SLOTS];
    int values[SLOTS];
    size_t used;
} table_t;

static table_t table;

static void read_lock(rwlock_t *l)
{
    pthread_mutex_lock(&l->m);
    while (l->writing)
        pthread_cond_wait(&l->ok, &l->m);
    l->readers++;
    pthread_mutex_unlock(&l->m);
}

static void read_unlock(rwlock_t *l)
{
    pthread_mutex_lock(&l->m);
    if (--l->readers == 0)
        pthread_cond_broadcast(&l->ok);
    pthread_mutex_unlock(&l->m);
}

static void write_lock(rwlock_t *l)
{
    pthread_mutex_lock(&l->m);
    while (l->writing || l->readers > 0)
        pthread_cond_wait(&l->ok, &l->m);
    l->writing = 1;
    pthread_mutex_unlock(&l->m);
}

static void write_unlock(rwlock_t *l)
{
    pthread_mutex_lock(&l->m);
    l->writing = 0;
    pthread_cond_broadcast(&l->ok);
    pthread_mutex_unlock(&l->m);
}

static int table_get(table_t *t, int key, int *value)
{
    int found = 0;

    read_lock(&t->lock);
    for (size_t i = 0; i < t->used; i++)
        if (t->keys[i] == key) {
            *value = t->values[i];
            found = 1;
            break;
        }
    read_unlock(&t->lock);
    return found;
}

static void table_put(table_t *t, int key, int value)
{
    size_t i;

    write_lock(&t->lock);
    for (i = 0; i < t->used && t->keys[i] != key; i++)
        ;
    if (i == t->used) {
        if (t->used == SLOTS) {
            fprintf(stderr, "table is full\n");
            exit(1);
        }
        t->used++;
        t->keys[i] = key;
    }
    t->values[i] = value;
    write_unlock(&t->lock);
}

static void *reader(void *arg)
{
    int *hits = (int *) arg;

    for (int i = 0; i < LOOKUPS; i++) {
        int v;
        if (table_get(&table, i % SLOTS, &v)) {
            if (v % 2 != 0)
                abort();
            (*hits)++;
        }
    }
    return NULL;
}

static void *writer(void *arg)
{
    for (int i = 0; i < UPDATES; i++)
        table_put(&table, i % 20, i * 2);
    return arg;
}

int main(void)
{
    pthread_t r[READERS], w;
    int hits[READERS];
    int sum = 0;

    pthread_mutex_init(&table.lock.m, NULL);
    pthread_cond_init(&table.lock.ok, NULL);
    pthread_create(&w, NULL, writer, NULL);
    for (int i = 0; i < READERS; i++) {
        hits[i] = 0;
        pthread_create(r + i, NULL, reader, &hits[i]);
    }
    pthread_join(w, NULL);
    for (int i = 0; i < READERS; i++)
        pthread_join(r[i], NULL);
    for (int k = 0; k < SLOTS; k++) {
        int v = 0;
        if (table_get(&table, k, &v))
            sum += v;
    }
    printf("used %zu sum %d\n", table.used, sum);
    return 0;
}
