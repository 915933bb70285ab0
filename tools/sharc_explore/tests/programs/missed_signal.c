/* deadlock
   The consumer looks at the flag without the lock, then waits: a signal in between is lost. */
struct gate { mutex racy * readonly m; struct cond dynamic * readonly opened; int racy open; };
void enter(struct gate * g) {
  int seen = g->open;
  if (seen == 0) {
    lock(&*g->m);
    wait(g->opened, g->m);
    unlock(&*g->m);
  }
  print(1);
}
int main(void) {
  struct gate * g = malloc(sizeof(struct gate));
  g->m = malloc(sizeof(mutex));
  g->opened = malloc(sizeof(struct cond));
  struct gate dynamic * shared = SCAST(struct gate dynamic *, g);
  int t = spawn(enter, shared);
  for (int i = 0; i < 40; i = i + 1) ;
  lock(&*shared->m);
  shared->open = 1;
  signal(shared->opened);
  unlock(&*shared->m);
  join(t);
  return 0;
}
