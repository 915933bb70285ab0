/* A cache with the least recently used entry thrown out, in a doubly linked list over an array. */
#include <pthread.h>
#include <stdio.h>
#include <stdlib.h>
#include <assert.h>

#define CAPACITY 6
#define KEYS 20

typedef struct slot {
    int key;
    long value;
    int prev, next;
    int valid;
} slot;

static slot slots[CAPACITY];
static int newest = -1, oldest = -1, used;
static unsigned long hits, misses;
static pthread_mutex_t mu = PTHREAD_MUTEX_INITIALIZER;

static long compute(int key)
{
    long v = 1;
    for (int i = 0; i < key; i++)
        v = v * 3 % 1009;
    return v;
}

static void unlink_slot(int i)
{
    slot *s = slots + i;

    if (s->prev >= 0)
        slots[s->prev].next = s->next;
    else
        newest = s->next;
    if (s->next >= 0)
        slots[s->next].prev = s->prev;
    else
        oldest = s->prev;
}

static void push_front(int i)
{
    slots[i].prev = -1;
    slots[i].next = newest;
    if (newest != -1)
        slots[newest].prev = i;
    newest = i;
    if (oldest == -1)
        oldest = i;
}

static long lookup(int key)
{
    static int calls;
    int i;
    long v;

    pthread_mutex_lock(&mu);
    calls++;
    for (i = newest; i != -1; i = slots[i].next)
        if (slots[i].key == key)
            break;
    if (i != -1) {
        hits++;
        unlink_slot(i);
    } else {
        misses++;
        if (used < CAPACITY)
            i = used++;
        else {
            i = oldest;
            assert(i >= 0 && slots[i].valid);
            unlink_slot(i);
        }
        slots[i] = (slot){ .key = key, .value = compute(key), .valid = 1 };
    }
    push_front(i);
    v = slots[i].value;
    pthread_mutex_unlock(&mu);
    return v;
}

static void *client(void *arg)
{
    int start = *(int *) arg, step = start % 3 + 1;
    long *sum = malloc(sizeof(long));

    *sum = 0;
    for (int i = 0; i < 50; i++)
        *sum += lookup((start + i * step) % KEYS);
    return sum;
}

int main(void)
{
    pthread_t t[3];
    int starts[3] = { 0, 4, 9 };
    long total = 0;

    for (int i = 0; i < 3; i++)
        pthread_create(&t[i], NULL, client, &starts[i]);
    for (int i = 0; i < 3; i++) {
        void *r;
        pthread_join(t[i], &r);
        total += *(long *) r;
        free(r);
    }
    printf("total %ld, %lu lookups\n", total, hits + misses);
    return 0;
}
