#include <stdio.h>
#include <stdlib.h>
#include <string.h>
#include <stdint.h>
#include <stdbool.h>
enum color { RED, GREEN = 5, BLUE }; enum neg { MINUS = -1, ZERO };
typedef struct node { int v; struct node *next; } node;
typedef int (*op)(int, int);
static int add(int a, int b) { return a + b; } static int mul(int a, int b) { return a * b; }
static op table[] = { add, mul, NULL };
static node pool[4]; static int used;
static node *new_node(int v) { node *n = &pool[used++]; n->v = v; n->next = NULL; return n; }
static node *push(node *list, int v) { node *n = new_node(v); n->next = list; return n; }
static int total(const node *list) { int t = 0; for (; list; list = list->next) t += list->v; return t; }
static void fill(int (*m)[3], int rows) { for (int i = 0; i < rows; i++) for (int j = 0; j < 3; j++) m[i][j] = i * 10 + j; }
static unsigned hash(const char *s) { unsigned h = 2166136261u; while (*s) { h ^= (unsigned char) *s++; h *= 16777619u; } return h; }
static int *largest(int *a, int n) { int *best = a; for (int *p = a; p < a + n; ++p) if (*p > *best) best = p; return best; }
static int data[6] = { 3, 1, 4, 1, 5, 9 };
static void swap(int *a, int *b) { int t = *a; *a = *b; *b = t; }
static void nothing(int *p) { *p += 1; } static void again(int *p) { return nothing(p); }
static long fact(int n) { return n < 2 ? 1 : n * fact(n - 1); }
int main(void)
{
    enum color c = BLUE; enum neg m = MINUS; printf("%d %d %d\n", c, m, c > (enum color) m);
    node *list = NULL; for (int i = 1; i < 5; i++) list = push(list, i * i); printf("%d\n", total(list));
    int r = 0; for (int i = 0; table[i]; i++) r = r * 10 + table[i](3, 4); printf("%d\n", r);
    static int grid[2][3]; fill(grid, 2); printf("%d %d\n", grid[1][2], (*grid)[1]);
    printf("%u %d\n", hash("front") % 1000, (int) (hash("") >> 4));
    *largest(data, 6) = -9; swap(&data[0], &data[2]); printf("%d %d %d\n", *largest(data, 5), data[0], (int) (largest(data, 6) - data));
    printf("%ld\n", fact(15)); 
    bool b = 5, d = !b; b ^= 1; printf("%d %d\n", b, d);
    uint8_t u8 = 250; u8 += 10; int8_t i8 = 127; i8++; uint16_t u16 = 65535; u16 *= 2; printf("%d %d %d\n", u8, i8, u16);
    unsigned x = 1; x <<= 31; x >>= 3; x = ~x; printf("%d\n", (int) (x >> 8)); long l = -1; printf("%d\n", l < 1u);
    int k = 0; for (int i = 0; i < 10; i++) { switch (i % 4) { case 0: continue; case 1: { int i = 100; k += i; break; } case 2: if (i > 5) break; default: k++; continue; } if (i == 9) break; k += 1000; } printf("%d\n", k);
    do { int k2 = k--; if (k2 % 3 == 0) continue; if (k2 % 7 == 0) break; } while (k > 0); printf("%d\n", k);
    char s[12] = "ab\tc\x41\101"; printf("%d %d %d %d\n", s[2], s[4], s[5], (int) sizeof s); int q[] = { [3] = 1, 2, [0] = 7 }; printf("%d %d\n", q[4], (int) (sizeof q / sizeof *q));
    struct { int a; struct { int b[2]; } in; } an = { 1, { { 2, 3 } } }, an2 = { .in.b[1] = 8 }; an2.a = an.in.b[1]; printf("%d %d\n", an2.a, an2.in.b[1]);
    int i = 5, j = 0; i++; i = (i > 3, i < 3) ? i : -i; printf("%d\n", i); int arr[3] = { 0 }; int at = 0; arr[at++] += 2; arr[at++]--; arr[at] = arr[0] ? arr[1] : 9; printf("%d %d %d\n", arr[0], arr[1], arr[2]);
    if (!(i = 0) && (j = 7, j > 6)) printf("%d\n", j);
    int one = { 3 }, *po = &one, *same = &*po; int flat[2][2] = { 1, 2, 3 }; struct { int u; int w[2]; } mixed[2] = { 1, 2, 3, { 4, { 5 } } };
    again(same); op sum = &add; printf("%d %d %d %d %d %d %d\n", one, flat[1][0], mixed[0].w[1], mixed[1].w[0], sum(one, 1), (int) sizeof "abc", NULL == NULL);
    free(NULL); exit(0);
}
