/* deadlock
   Readers count themselves in and out with a racy counter: a lost count leaves the writer waiting for ever. */
struct room { mutex racy * readonly m; struct cond dynamic * readonly empty; int racy inside; };
void reader(struct room * r) {
  r->inside = r->inside + 1;
  for (int i = 0; i < 8; i = i + 1) ;
  int left = r->inside - 1;
  r->inside = left;
  if (left == 0) {
    lock(&*r->m);
    broadcast(r->empty);
    unlock(&*r->m);
  }
}
int main(void) {
  struct room * own = malloc(sizeof(struct room));
  own->m = malloc(sizeof(mutex));
  own->empty = malloc(sizeof(struct cond));
  struct room dynamic * r = SCAST(struct room dynamic *, own);
  int a = spawn(reader, r);
  int b = spawn(reader, r);
  join(a);
  join(b);
  lock(&*r->m);
  while (r->inside != 0) wait(r->empty, r->m);
  unlock(&*r->m);
  return 0;
}
