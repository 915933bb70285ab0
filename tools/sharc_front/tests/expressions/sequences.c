/* Sequences of effects, calls in operands, structs by value and pointers: in an order that C fixes. */
#include <stdio.h>
#include <stdlib.h>
#include <string.h>
static int g = 1, log_n, a[8];
static int note(int x) { log_n = log_n * 7 + x; log_n %= 100003; return x; }
static int inc(int *p) { return ++*p; }
typedef struct { int x, y; } pt; typedef struct { pt a; int v[2]; } box;
static pt mk(int x, int y) { pt p = { x, y }; return p; }
static pt add(pt a, pt b) { a.x += b.x; a.y += b.y; return a; }
static box mkbox(pt p) { box b = { p, { p.x, p.y } }; return b; }
static int sum(box b) { b.v[0] += b.a.x; return b.v[0] + b.v[1]; }
static struct node { int v; struct node *n; } *head;
static struct node *cons(int v, struct node *n) { struct node *p = malloc(sizeof *p); p->v = v; p->n = n; return p; }
static int (*pick(int k))(int x);
static int twice(int x) { return 2 * x; } static int thrice(int x) { return 3 * x; }
static int (*pick(int k))(int x) { return k ? twice : thrice; }
int main(void)
{
    int i = 0, j, k; unsigned u = 0; long l;
    j = (note(1), note(2)) + 10; printf("%d %d\n", j, log_n);
    k = (i = 3) && (j = note(4)) > 3 || note(5); printf("%d %d %d %d\n", i, j, k, log_n);
    k = note(0) && note(6) || note(7) && !note(0); printf("%d %d\n", k, log_n);
    j = i > 2 ? (i = note(8), i + 1) : note(9); printf("%d %d\n", i, j);
    a[i = 2] = (g = 5, inc(&g)); printf("%d %d %d\n", i, a[2], g);
    i = j = g = note(3); printf("%d %d %d\n", i, j, g);
    a[1] = 4; a[3] += inc(&a[1]) * 2; printf("%d %d\n", a[1], a[3]);
    i = 5; i += (j = i) + (k = 2); printf("%d %d %d\n", i, j, k);
    printf("%d\n", sum(mkbox(add(mk(1, 2), add(mk(3, 4), mk(5, 6))))));
    { pt p = mk(1, 1), q; q = p = add(p, p); q.x++; printf("%d %d %d\n", p.x, q.x, add(q, p).x); }
    { box b[2] = { { { 1, 2 }, { 3, 4 } } }; b[1] = b[0]; b[1].v[1] = sum(b[1]); b[0] = mkbox(b[1].a); printf("%d %d %d\n", b[1].v[1], b[0].v[0], sum(b[0])); }
    for (i = 0; i < 4; i++) head = cons(note(i), head);
    { struct node *p = head; int s = 0; while (p && (s += p->v, p->v != 1)) p = p->n; printf("%d %d\n", s, p ? p->v : -1); }
    { int s = 0; for (struct node *p = head; p; p = p->n) s = s * 10 + p->v; printf("%d\n", s); }
    printf("%d %d\n", pick(1)(5) + pick(0)(note(2)), (pick(g > 2) == twice) ? 1 : 0);
    do { if (i == 2) { i--; continue; } note(i); } while (--i > 0 && note(9)); printf("%d %d\n", i, log_n);
    for (i = 0, j = 10; i < j && note(1); i += 2, j--) { if (i == 4) continue; if (j == 7) break; note(i + j); } printf("%d %d %d\n", i, j, log_n);
    u -= 3; l = u; printf("%u %ld %d\n", u, l, u > i); u *= u; printf("%u\n", u); u = u << 31 | u >> 1; printf("%u %d\n", u, (int) (u % 97));
    { unsigned char c = 250; c += 10; c = -c; signed char d = c; short h = 70000 + d; printf("%d %d %d\n", c, d, h); }
    switch (note(2) + i) { case 1: note(1); break; default: note(3); case 6: { int q = note(4); switch (q) { case 4: if (q) break; note(5); default: note(6); } } note(7); break; case 9: note(8); } printf("%d\n", log_n);
    { static char s[20] = "ab"; char *p = s; *p++ = 'x'; *p = p[-1] + 1; strcat(s, "cd"); printf("%s %d\n", s, (int) strlen(s)); const char *q = "hello"; while (*q && *q != 'l') q++; printf("%c %d\n", *q, (int) strlen(q)); }
    { int m[2][3] = { { 1, 2, 3 }, { 4, 5, 6 } }, (*r)[3] = m, t = 0; for (int x = 0; x < 2; x++) for (int y = 0; y < 3; y++) t += r[x][y] * (x + 1); printf("%d %d\n", t, (int) (sizeof m / sizeof *m)); }
    l = 1L << 40; l += i = 7; printf("%ld %d\n", l, (int) (l >> 38)); { unsigned long w = ~0UL; w = w / 10 + w % 10; printf("%ld\n", (long) (w >> 3)); }
    return 0;
}
