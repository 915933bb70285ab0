/* deadlock
   Makers and takers wait for one condition variable, and each wakes one waiter: it may be one of its own kind. */
struct shelf { mutex racy * readonly m; struct cond dynamic * readonly changed; int racy full; };
void put(struct shelf * s) {
  lock(&*s->m);
  while (s->full == 1) wait(s->changed, s->m);
  s->full = 1;
  signal(s->changed);
  unlock(&*s->m);
}
void get(struct shelf * s) {
  lock(&*s->m);
  while (s->full == 0) wait(s->changed, s->m);
  s->full = 0;
  signal(s->changed);
  unlock(&*s->m);
}
void taker(struct shelf * s) { for (int i = 0; i < 2; i = i + 1) get(s); }
void maker(struct shelf * s) {
  for (int i = 0; i < 2; i = i + 1) {
    for (int work = 0; work < 8; work = work + 1) ;
    put(s);
  }
}
int main(void) {
  struct shelf * own = malloc(sizeof(struct shelf));
  own->m = malloc(sizeof(mutex));
  own->changed = malloc(sizeof(struct cond));
  struct shelf dynamic * s = SCAST(struct shelf dynamic *, own);
  int a = spawn(taker, s);
  int b = spawn(taker, s);
  int c = spawn(maker, s);
  int d = spawn(maker, s);
  join(a);
  join(b);
  join(c);
  join(d);
  return 0;
}
