#include <stdio.h>
#include <stdlib.h>
static void twice(int *p) { *p *= 2; }
static int sum(int *p, int n) { int t = 0; for (int i = 0; i < n; i++) t += p[i]; return t; }
struct w { int id, n; };
static void bump(struct w *w) { w->n += w->id; }
int main(void) { int *a = malloc(10 * sizeof *a); for (int i = 0; i < 10; i++) a[i] = i * i; twice(&a[2]); twice(&a[0]); twice(a + 5); printf("%d %d\n", sum(a, 10), a[2]);
 struct w *ws = calloc(3, sizeof *ws); for (int i = 0; i < 3; i++) { ws[i].id = i + 1; bump(&ws[i]); bump(ws + i); } printf("%d %d\n", ws[2].n, ws->n); free(ws); free(a); return 0; }
