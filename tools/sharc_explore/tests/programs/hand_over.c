/* race
   The maker gives a buffer away and looks at it once more; the taker frees it at once, or late. */
struct buf { int n; };
struct slot { mutex m; struct buf dynamic * locked(m) b; };
void taker(struct slot * s) {
  for (int i = 0; i < 4; i = i + 1) {
    lock(&s->m);
    struct buf * p = s->b;
    unlock(&s->m);
    if (p != NULL) p->n = p->n + 1;
  }
}
int main(void) {
  struct slot * s = malloc(sizeof(struct slot));
  int t = spawn(taker, s);
  for (int i = 0; i < 20; i = i + 1) ;
  struct buf * p = malloc(sizeof(struct buf));
  p->n = 1;
  lock(&s->m);
  s->b = p;
  unlock(&s->m);
  join(t);
  print(p->n);
  return 0;
}
