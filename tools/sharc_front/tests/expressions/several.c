#include <stdio.h>
#include <stdlib.h>
#include <string.h>
#include <stdint.h>
extern int late; int late = 5; int tent; int tent = 7; extern int arr_e[]; int arr_e[3] = { 1, 2, 3 };
static int a3[2][3][4];
static int sum4(int (*m)[4], int n) { int t = 0; for (int i = 0; i < n; i++) t += m[i][1] * 10 + m[i][3]; return t; }
static int sum2(int m[][4], int r) { return m[r][2] + sizeof m[0] / sizeof m[0][0]; }
static long fnv(const char *s) { unsigned long h = 14695981039346656037UL; while (*s) { h ^= (unsigned char) *s++; h *= 1099511628211UL; } return (long) (h >> 20); }
typedef struct { int x, y; } pt; typedef struct { pt a, b; char name[8]; } seg;
static pt mk(int x, int y) { return (pt){ x, y }; }
static seg sg[2] = { { { 1, 2 }, { 3, 4 }, "ab" }, { .b = { 9 }, .name = { 'q', 0 } } };
static int dist(pt a, pt b) { a.x -= b.x; a.y -= b.y; return a.x * a.x + a.y * a.y; }
static seg flip(const seg *s) { seg r = *s; pt t = r.a; r.a = r.b; r.b = t; r.name[0]++; return r; }
static int g; static int inc(void) { return ++g; } static int dbl(int *p) { *p *= 2; return *p; }
static void out2(int *q, int *r, int n) { *q = n / 10; *r = n % 10; }
static int *pick(int *a, int *b, int c) { return c ? a : b; }
static int one = 1, two = 2, three = 3;
static unsigned char crc(const unsigned char *d, size_t n) { unsigned char c = 0xff; for (size_t i = 0; i < n; ++i) { c ^= d[i]; for (int b = 8; b; b--) c = c & 0x80 ? (c << 1) ^ 0x31 : c << 1; } return c; }
int main(void)
{
    static int l[2][4] = { { 1, 2, 3, 4 }, { 5, 6, 7, 8 } }; long v = 0xff; int i; char c; unsigned u;
    a3[1][2][1] = 5; a3[0][1][3] = 7;
    printf("%d %d %d\n", late, tent, arr_e[2]);
    printf("%d %d %d\n", sum4(a3[1], 3), sum4(a3[0], 3), sum2(a3[1], 2));
    printf("%d %d %d\n", sum4(l, 2), sum2(l, 1), (*(l + 1))[2] + *(*l + 1) + *l[1]);
    printf("%ld %ld\n", fnv("hello"), fnv(""));
    printf("%d\n", dist(mk(1, 2), mk(4, 6)));
    { static seg f; f = flip(&sg[0]); printf("%d %d %d %d %c%c %d\n", f.a.x, f.a.y, f.b.x, f.b.y, f.name[0], f.name[1], sg[0].a.x); sg[1] = flip(&f); printf("%d %s %d\n", sg[1].a.x, sg[1].name, flip(&sg[1]).b.y); }
    i = c = 300; printf("%d %d\n", i, c); i = (u = -1) > 5; printf("%d\n", i); c = 200; printf("%d %d\n", c, (unsigned char) c);
    printf("%d\n", (int) (v & 255) << 24); printf("%d %d\n", c + c, (char) (c + c));
    g = inc() + inc() * 10; printf("%d\n", g); i = 3; printf("%d\n", dbl(&i) + 1); printf("%d\n", i);
    { int q, r; out2(&q, &r, 47); printf("%d %d\n", q, r); }
    printf("%d %d\n", *pick(&one, &two, 1), *pick(&three, &two, 0)); *pick(&one, &three, 0) = 9; printf("%d %d %d\n", one, two, three);
    { unsigned char d[3] = { 0xbe, 0xef, 0x92 }; printf("%d\n", crc(d, 3)); }
    { uint64_t s = 88172645463325252ULL; for (i = 0; i < 4; i++) { s ^= s << 13; s ^= s >> 7; s ^= s << 17; } printf("%d %d %d\n", (int) (s % 1000), (int) (s / 12345 % 997), s > 1ULL << 63); }
    { int x = 5; int *p = &x, **pp = &p; **pp += 2; int y = *p * 0 + x; printf("%d\n", y); }
    { char b[16] = "abc"; char *e = strchr(b, 'c'); (void) e; strcat(b, "def"); printf("%zu %d %d %c\n", strlen(b), strcmp(b, "abcdeg"), strncmp(b, "abx", 2), b[5]); strncpy(b, "zz", 5); printf("%d %d %d\n", b[1], b[2], b[5]); sprintf(b, "%d:%03d|%5d", -12, 7, 42); printf("%s %zu %d\n", b, strlen(b), b[4]); }
    { static const short tab[] = { 3, -1, 4 }; const short *p = tab; int s = 0; while (p < tab + 3) s = s * 10 + *p++; printf("%d %d\n", s, (int) (p - tab)); }
    { int x = 7; x = x > 5 ? x < 10 ? 1 : 2 : 3; printf("%d\n", x); x = -7 / 2 * 2 + -7 % 2; printf("%d %d %d\n", x, -7 >> 1, ~x); }
    { int k = 0; for (i = 0; i < 10; i++) { switch (i) { case 1: case 3: k += 1; if (k > 1) break; case 5: k += 10; continue; default: k += 100; case 7: k += 1000; break; } k += 10000; } printf("%d\n", k); }
    { _Bool b = 5; b += 3; b--; printf("%d\n", b); b = !b; b <<= 3; printf("%d\n", b); }
    { signed char sc = -128; sc--; printf("%d\n", sc); short sh = 32767; sh++; printf("%d\n", sh); unsigned short us = 0; us--; printf("%d\n", us); }
    { long m = -9223372036854775807L - 1; printf("%ld %d\n", m, m < 0); unsigned long um = 0; um--; printf("%d %d\n", um == ~0UL, (int) (um >> 60)); printf("%lu\n", um / 3); printf("%d\n", (int) (um % 7)); }
    { int n = 0; do { if (n == 2) continue; if (n == 5) break; printf("%d\n", n); } while (++n < 8); }
    return 0;
}
