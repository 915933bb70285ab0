#include <stdio.h>
#include <stdlib.h>
struct p { int x, y; }; struct big { struct p a; int v[3]; };
struct cond { int a[5]; char c; }; struct mutex { long l; char c; };
static int g;
static void show(struct p p, int k) { printf("%d\n", p.x * 100 + p.y * 10 + k); g += p.x; }
static struct p mk(int x, int y) { struct p p = { x, y }; return p; }
static struct p swap(struct p p) { int t = p.x; p.x = p.y; p.y = t; return p; }
static int len(struct p p) { return p.x * p.x + p.y * p.y; }
static struct big grow(struct big b, int k) { b.a = swap(b.a); b.v[k] += len(b.a); return b; }
static struct p (*choose(int k))(struct p) { return k ? swap : NULL; }
static int both(struct p a, struct p b) { return a.x * 1000 + a.y * 100 + b.x * 10 + b.y; }
static struct p *find(int k) { static struct p t[3]; t[k].x += k; return &t[k]; }
int main(void)
{
    show(mk(1, 2), 3); show(swap(mk(1, 2)), g++); show(swap(swap(swap(mk(3, 4)))), g);
    struct big b = { { 1, 2 }, { 5, 6, 7 } }, c; c = grow(b, 1); b = grow(grow(c, 2), 0); c = b;
    printf("%d %d %d %d %d\n", c.a.x, c.v[0], c.v[1], c.v[2], grow(c, 1).v[1]);
    int i = 0; while (len(mk(i, i)) < 20) i++; printf("%d\n", i);
    for (i = 0; i < len(mk(1, 2)); i += len(mk(1, 0))) if (len(swap(mk(i, 0))) == 4) break; printf("%d\n", i);
    struct p q = choose(1)(mk(8, 9)); printf("%d %d\n", q.x, q.y);
    printf("%d\n", both(q, swap(q)) + both(mk(1, 1), *find(2)));
    *find(1) = q; *find(2) = swap(*find(1)); printf("%d %d\n", find(2)->x, (*find(1)).y);

    printf("%d %d %d\n", (int) sizeof(struct cond), (int) sizeof(struct mutex), (int) sizeof(struct big));
    return 0;
}
