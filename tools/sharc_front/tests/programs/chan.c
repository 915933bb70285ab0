#include <pthread.h>
#include <stdio.h>
#include <stdlib.h>
#include <stdbool.h>
typedef struct chan { int *buf; size_t cap, head, count; bool closed; pthread_mutex_t m; pthread_cond_t can_read, can_write; } chan;
static chan *chan_new(size_t cap)
{
    chan *c = malloc(sizeof(chan));
    c->buf = malloc(cap * sizeof(int)); c->cap = cap; c->head = c->count = 0; c->closed = false;
    pthread_mutex_init(&c->m, NULL); pthread_cond_init(&c->can_read, NULL); pthread_cond_init(&c->can_write, NULL);
    return c;
}
static void chan_send(chan *c, int v)
{
    pthread_mutex_lock(&c->m);
    while (c->count == c->cap) pthread_cond_wait(&c->can_write, &c->m);
    c->buf[(c->head + c->count++) % c->cap] = v;
    pthread_cond_signal(&c->can_read);
    pthread_mutex_unlock(&c->m);
}
static bool chan_recv(chan *c, int *out)
{
    bool ok = false;
    pthread_mutex_lock(&c->m);
    while (c->count == 0 && !c->closed) pthread_cond_wait(&c->can_read, &c->m);
    if (c->count) { *out = c->buf[c->head]; c->head = (c->head + 1) % c->cap; c->count--; ok = true; pthread_cond_signal(&c->can_write); }
    pthread_mutex_unlock(&c->m);
    return ok;
}
static void chan_close(chan *c) { pthread_mutex_lock(&c->m); c->closed = true; pthread_cond_broadcast(&c->can_read); pthread_mutex_unlock(&c->m); }
struct ends { chan *in, *out; int add; };
static void *stage(void *p) { struct ends *e = p; int v; while (chan_recv(e->in, &v)) chan_send(e->out, v * 2 + e->add); chan_close(e->out); return NULL; }
int main(void)
{
    chan *a = chan_new(2), *b = chan_new(3), *c = chan_new(1); struct ends e1 = { a, b, 1 }, e2 = { b, c, -1 }; pthread_t t1, t2; int v, n = 0; long s = 0;
    pthread_create(&t1, NULL, stage, &e1); pthread_create(&t2, NULL, stage, &e2);
    for (int i = 0; i < 6; i++) chan_send(a, i);
    chan_close(a);
    while (chan_recv(c, &v)) { n++; s += v; printf("%d\n", v); }
    pthread_join(t1, NULL); pthread_join(t2, NULL);
    printf("%d %ld\n", n, s);
    free(a->buf); free(a);
    return 0;
}
