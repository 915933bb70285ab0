#include <pthread.h>
#include <stdio.h>
#include <stdlib.h>
static int data[128];
typedef struct { int lo, hi, depth; long sum; } range_t;
static void *sum_range(void *arg)
{
    range_t *r = (range_t *) arg;
    if (r->depth == 0 || r->hi - r->lo < 8) {
        r->sum = 0;
        for (int i = r->lo; i < r->hi; i++) r->sum += data[i];
        return NULL;
    }
    int mid = (r->lo + r->hi) / 2;
    range_t left = { r->lo, mid, r->depth - 1, 0 }, right = { .lo = mid, .hi = r->hi, .depth = r->depth - 1 };
    pthread_t t;
    pthread_create(&t, NULL, sum_range, &left);
    sum_range(&right);
    pthread_join(t, NULL);
    r->sum = left.sum + right.sum;
    return NULL;
}
int main(void)
{
    for (int i = 0; i < 128; i++) data[i] = (i * 37) % 101 - 50;
    range_t all = { 0, 128, 3, 0 };
    sum_range(&all);
    printf("%ld\n", all.sum);
    return 0;
}
