#include <stdio.h>
#include <stdlib.h>
#include <pthread.h>
struct in { int u; int v[2]; };
struct p { int x, y; struct in a; struct p *next; };
struct box { pthread_mutex_t lock; int n; pthread_mutex_t other; };
static void f(int *q) { *q += 3; }
static void g(struct in *q) { q->u += 2; q->v[1] += q->u; }
static void h(struct p **q) { (*q)->y++; }
static void take(pthread_mutex_t *m) { pthread_mutex_lock(m); }
static struct p glob[2], one;
static struct in inner[3];
static void k(int *q) { *q *= 2; }
int main(void)
{
    struct p *p = malloc(sizeof *p), s; s.x = 1; s.y = 2; s.a.u = 0; s.a.v[0] = s.a.v[1] = 0; s.next = NULL;
    f(&p->y); f(&s.x); g(&p->a); g(&s.a); p->next = p; h(&p->next);
    glob[1] = *p; glob[1].a.u++; *p = glob[1]; p->next = p; one = glob[1]; one.a.v[0]--;
    printf("%d %d %d %d %d %d %d %d\n", p->y, s.x, p->a.u, p->a.v[1], s.a.u, glob[1].y, glob[1].a.v[1], one.a.v[0]);
    struct p *many = calloc(3, sizeof *many); many[1].x = 4; f(&many[1].x); g(&many[2].a); many[0] = many[2];
    printf("%d %d %d\n", many[1].x, many[2].a.v[1], many[0].a.u);
    inner[1].u = 7; k(&inner[1].u); inner[2] = inner[1]; printf("%d %d\n", inner[2].u, inner[2].v[1]);
    struct box *b = malloc(sizeof *b); pthread_mutex_init(&b->lock, NULL); pthread_mutex_init(&b->other, NULL);
    take(&b->lock); pthread_mutex_lock(&b->other); b->n = 3; pthread_mutex_unlock(&b->other); pthread_mutex_unlock(&b->lock);
    printf("%d\n", b->n);
    return 0;
}
