#include <pthread.h>
#include <stdatomic.h>
#include <stdio.h>
#include <stdlib.h>
#include <string.h>
struct q { int n; struct q *next; };
static struct q pool[4], *gp = &pool[1];
static int idx[3];
static atomic_int cells[3];
static atomic_uint au = 5;
static _Atomic long al;
int main(void)
{
    int i = 0, v[6] = { 1, 2, 3, 4, 5, 6 }, w[6];
    char name[12] = "hello";
    gp->n += 3; gp->n++; pool[2].n = gp->n++ + 1; gp = &pool[2]; ++gp->n;
    printf("%d %d\n", pool[1].n, pool[2].n);
    for (i = 0; i < 3; i++) printf("%d\n", atomic_fetch_add(&cells[i], i + 2));
    printf("%d %u\n", cells[2], atomic_fetch_sub(&au, 7) - 6);
    printf("%u %ld\n", au, atomic_exchange(&al, 9)); printf("%ld\n", al);
    al += 5; al--; printf("%ld\n", al++);
    memcpy(w, v, sizeof v); memset(&w[2], 0, 2 * sizeof(int)); memset(&w[5], 0, sizeof w[5]);
    for (i = 0; i < 6; i++) printf("%d ", w[i]);
    printf("%zu %zu %ld\n", strlen(name), strlen(&name[2]), strtol("-42x", NULL, 10));
    printf("%d %d\n", atoi(" 17"), strcmp(name, "help") < 0);
    { int e = 2; printf("%d\n", atomic_compare_exchange_strong(&cells[0], &e, 8)); printf("%d\n", e); e = 1;
      printf("%d\n", atomic_compare_exchange_strong(&cells[0], &e, 9)); printf("%d %d\n", e, cells[0]); }
    { struct q a = { 4, NULL }, b; memcpy(&b, &a, sizeof a); b.n++; printf("%d %d\n", a.n, b.n); memset(&a, 0, sizeof(a)); printf("%d\n", a.n); }
    { char buf[20]; int k = snprintf(buf, sizeof buf, "%s-%03d|%c", name, 7 * idx[0] - 4, 'x'); printf("%d %d %d\n", k, buf[6], buf[10]); k = snprintf(buf, 4, "%d", 12345); printf("%d %d %d\n", k, buf[2], buf[3]); }
    return 0;
}
