#include <pthread.h>
#include <stdio.h>
#include <stdlib.h>
struct shape;
struct shape_ops { int (*area)(const struct shape *); void (*grow)(struct shape *, int); };
struct shape { const struct shape_ops *ops; int w, h; };
static int rect_area(const struct shape *s) { return s->w * s->h; }
static void rect_grow(struct shape *s, int by) { s->w += by; s->h += by; }
static int tri_area(const struct shape *s) { return s->w * s->h / 2; }
static void tri_grow(struct shape *s, int by) { s->w += 2 * by; }
static const struct shape_ops rect_ops = { rect_area, rect_grow };
static const struct shape_ops tri_ops = { .grow = tri_grow, .area = tri_area };
static pthread_rwlock_t rw = PTHREAD_RWLOCK_INITIALIZER;
static pthread_once_t once = PTHREAD_ONCE_INIT;
static pthread_barrier_t gate;
static int inits, total;
static void init_once(void) { inits++; }
static void *work(void *p)
{
    struct shape *s = p;
    pthread_once(&once, init_once);
    for (int i = 0; i < 3; i++) s->ops->grow(s, i);
    pthread_barrier_wait(&gate);
    pthread_rwlock_wrlock(&rw);
    total += s->ops->area(s);
    pthread_rwlock_unlock(&rw);
    pthread_rwlock_rdlock(&rw);
    int ok = total > 0;
    pthread_rwlock_unlock(&rw);
    return (void *) (long) ok;
}
int main(void)
{
    pthread_t t[4]; struct shape shapes[4]; int oks = 0;
    pthread_barrier_init(&gate, NULL, 4);
    for (int i = 0; i < 4; i++) { shapes[i] = (struct shape){ i % 2 ? &tri_ops : &rect_ops, i + 1, 2 * i + 1 }; pthread_create(&t[i], NULL, work, &shapes[i]); }
    for (int i = 0; i < 4; i++) { void *r; pthread_join(t[i], &r); oks += (int) (long) r; }
    printf("total %d inits %d oks %d\n", total, inits, oks);
    return 0;
}
