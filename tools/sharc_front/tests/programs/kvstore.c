#include <pthread.h>
#include <stdio.h>
#include <stdlib.h>
#include <string.h>
#define BUCKETS 8
struct entry { char *key; int value; struct entry *next; };
struct bucket { pthread_mutex_t lock; struct entry *head; unsigned count; };
static struct bucket store[BUCKETS];
static unsigned hash(const char *s) { unsigned h = 0; for (; *s; ++s) h = 31 * h + *s; return h % BUCKETS; }
static void put(const char *key, int value)
{
    struct bucket *b = &store[hash(key)];
    struct entry *e;
    pthread_mutex_lock(&b->lock);
    for (e = b->head; e != NULL; e = e->next)
        if (!strcmp(e->key, key)) { e->value += value; pthread_mutex_unlock(&b->lock); return; }
    e = malloc(sizeof *e);
    e->key = malloc(strlen(key) + 1);
    strcpy(e->key, key);
    e->value = value;
    e->next = b->head;
    b->head = e;
    b->count++;
    pthread_mutex_unlock(&b->lock);
}
static void *client(void *arg)
{
    int id = *(int *) arg; char name[16];
    for (int i = 0; i < 10; i++) { snprintf(name, sizeof name, "key%d", (i * id) % 7); put(name, id + i); }
    return NULL;
}
int main(void)
{
    pthread_t t[3]; int ids[3]; long sum = 0; unsigned n = 0;
    for (int i = 0; i < BUCKETS; i++) pthread_mutex_init(&store[i].lock, NULL);
    for (int i = 0; i < 3; i++) { ids[i] = i + 1; pthread_create(&t[i], NULL, client, &ids[i]); }
    for (int i = 0; i < 3; i++) pthread_join(t[i], NULL);
    for (int i = 0; i < BUCKETS; i++) { n += store[i].count; for (struct entry *e = store[i].head; e; e = e->next) sum += e->value * (long) strlen(e->key); }
    printf("%u keys, sum %ld\n", n, sum);
    return 0;
}
