/* A stack as a linked list, with a lock, pushed and popped by several threads. */
#include <pthread.h>
#include <stdio.h>
#include <stdlib.h>
#include <stdint.h>

enum { PUSHERS = 2, POPPERS = 2, EACH = 60 };

typedef struct item {
    struct item *next;
    uint32_t value;
} item_t;

typedef struct {
    item_t *top;
    int depth, max_depth;
    pthread_mutex_t lock;
    pthread_cond_t filled;
} stack_t_;

static stack_t_ *stack;
static uint32_t checksum;
static pthread_mutex_t sum_lock = PTHREAD_MUTEX_INITIALIZER;

static stack_t_ *stack_create(void)
{
    stack_t_ *s = calloc(1, sizeof *s);
    pthread_mutex_init(&s->lock, NULL);
    pthread_cond_init(&s->filled, NULL);
    return s;
}

static void push(stack_t_ *s, uint32_t v)
{
    item_t *i = malloc(sizeof *i);
    i->value = v;
    pthread_mutex_lock(&s->lock);
    i->next = s->top;
    s->top = i;
    if (++s->depth > s->max_depth)
        s->max_depth = s->depth;
    pthread_cond_signal(&s->filled);
    pthread_mutex_unlock(&s->lock);
}

static uint32_t pop(stack_t_ *s)
{
    item_t *i;
    uint32_t v;

    pthread_mutex_lock(&s->lock);
    while (!s->top)
        pthread_cond_wait(&s->filled, &s->lock);
    i = s->top;
    s->top = i->next;
    s->depth--;
    pthread_mutex_unlock(&s->lock);
    v = i->value;
    free(i);
    return v;
}

static uint32_t mix(uint32_t x)
{
    x ^= x >> 16;
    x *= 0x7feb352dU;
    x ^= x >> 15;
    x *= 0x846ca68bU;
    x ^= x >> 16;
    return x;
}

static void *pusher(void *arg)
{
    unsigned id = (unsigned) (uintptr_t) arg;
    for (unsigned i = 0; i < EACH; i++)
        push(stack, mix(id * 1000u + i));
    return NULL;
}

static void *popper(void *arg)
{
    uint32_t own = 0;
    (void) arg;
    for (int i = 0; i < EACH; i++)
        own += pop(stack);
    pthread_mutex_lock(&sum_lock);
    checksum += own;
    pthread_mutex_unlock(&sum_lock);
    return NULL;
}

int main(void)
{
    pthread_t t[PUSHERS + POPPERS];
    int k = 0;

    stack = stack_create();
    for (uintptr_t i = 0; i < PUSHERS; i++)
        pthread_create(&t[k++], NULL, pusher, (void *) i);
    while (k < PUSHERS + POPPERS)
        pthread_create(&t[k++], NULL, popper, NULL);
    for (k = 0; k < PUSHERS + POPPERS; k++)
        pthread_join(t[k], NULL);
    printf("checksum %u depth %d\n", checksum, stack->depth);
    return stack->top != NULL;
}
