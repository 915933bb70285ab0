#include <stdio.h>
#include <stdlib.h>
#include <string.h>
#include <stdint.h>
#include <stdatomic.h>
static int log_[200], n;
static int note(int x) { log_[n++] = x; return x; }
static unsigned unote(unsigned x) { log_[n++] = (int) x; return x; }
static unsigned long lnote(unsigned long x) { log_[n++] = (int) x; return x; }
struct p { int x, y; };
static struct p mk(int x) { struct p p; p.x = note(x); p.y = x + 1; return p; }
static int sum(struct p p, int k) { return p.x * 10 + p.y + k; }
static int table[8] = { 5, 6, 7, 8, 9, 10, 11, 12 };
static int *place(int i) { note(100 + i); return &table[i]; }
static struct p pool[3];
static struct p *pick(int i) { note(200 + i); return &pool[i]; }
static char buffer[20];
static char *text(void) { note(300); return buffer; }
static _Atomic int at, cells[3]; static int counted;
static int count(void) { return ++counted; }
static int even(int k); static int odd(int k) { return k == 0 ? 0 : even(k - 1); } static int even(int k) { return k == 0 ? 1 : odd(k - 1); }
static int pass(int a, int b, int c, int d) { return a * 1000 + b * 100 + c * 10 + d; }
static void nothing(void) { note(400); }
static int (*chosen(int k))(int) { return k ? note : even; }
int main(void)
{
    int x = 0, i = 0;
    note(1) + note(2);
    (void) note(3);
    x = note(4) ? note(5) : note(6); printf("%d\n", x);
    x += note(7); printf("%d\n", x);
    table[note(1)] += note(8); printf("%d\n", table[1]);
    table[note(2)]++; ++*place(3); *place(4) = 3; (*place(4))--; printf("%d %d %d\n", table[2], table[3], table[4]);
    x = *place(5) = 17; printf("%d %d\n", x, table[5]);
    pick(1)->x = note(9); pick(1)->y += 4; *pick(2) = mk(11); pool[0] = *pick(2); printf("%d %d %d %d\n", pool[1].x, pool[1].y, pool[2].y, pool[0].x);
    x = sum(mk(3), note(2)) + sum(*pick(2), 1); printf("%d\n", x);
    printf("%d\n", mk(4).y + 1); mk(5);
    while (note(i) < 3 && note(50 + i) != 52) i++;
    printf("%d\n", i);
    for (i = note(0); i < note(3); i += note(1)) if (note(i) == 1) continue; else note(60);
    do { i--; } while (note(i) > 0 || (note(70), 0));
    switch (note(2)) { case 1: note(80); case 2: note(81); break; default: note(82); }
    x = (note(10), note(11)); printf("%d\n", x);
    x = sizeof(note(99)) + sizeof(int); printf("%d\n", x);
    x = -note(3) + ~note(4) * !note(0); printf("%d\n", x);
    unsigned u = unote(3) - unote(5); printf("%u %d\n", u, (int) (unote(4000000000u) * unote(3) % 1000));
    unsigned long l = lnote(5) * lnote(7) - lnote(40); printf("%d %d\n", (int) (l >> 60), (int) (lnote(9) < l));
    uint8_t b = note(300); short s = (short) note(70000); printf("%d %d\n", b, s);
    printf("%d %d\n", abs(note(-6)), (int) strlen(strcpy(text(), "hello")));
    memset(text(), 'a' + note(1), note(3)); printf("%d %d\n", buffer[0], buffer[3]);
    printf("%s %d %s\n", text(), note(12), note(13) ? "a" : "b");
    at = note(5); at += note(6); x = at++ + note(1); printf("%d %d\n", x, atomic_fetch_add(&at, note(2)));
    x = note(1) && note(2); printf("%d\n", x); x = note(0) || note(0); printf("%d\n", x); x = note(0) && note(7); printf("%d\n", x);
    if (note(1) && !note(0) && (x = note(9)) > 3 && note(x)) printf("%d\n", x);
    x = pass(note(1), 2, 3, 4) + pass(1, x++, 3, 4); printf("%d\n", x);
    printf("%d %d\n", even(10), odd(7)); nothing();
    printf("%d\n", chosen(1)(33)); int (*f)(int) = chosen(0); printf("%d\n", f(6));
    int a[3] = { note(1), note(2) }; struct p q = { note(4), note(5) }; printf("%d %d %d\n", a[1], a[2], q.y);
    int *h = malloc((size_t) note(4) * sizeof *h); h[note(3)] = note(8); printf("%d\n", h[3]); free(h);
    x = (note(1) ? note(2) : note(3)) + (note(0) ? note(4) : note(5)); printf("%d\n", x);
    x = note(1) == 1 ? 5 : note(2); x = x > note(2) ? x : 0; printf("%d\n", x);
    long w = note(5); w = w * note(3) + 4000000000L; printf("%ld\n", w);
    char c = 'a'; c += note(1); c = c == note('b') ? note('c') : c; printf("%d\n", c);
    printf("%d\n", pass(note(1) + note(2), table[note(0)], note(3) > 2, (note(5), 6)));
    i = 0; cells[i++] = 5; cells[count()] = 6; printf("%d %d %d %d\n", i, cells[0], cells[1], n);
    for (i = 0; i < n; i++) printf("%d\n", log_[i]);
    return note(3) - 3;
}
