/* stop
   A taker that was woken does not look again: another taker may have been faster, and the place is empty. */
struct item { int n; };
struct box { mutex racy * readonly m; struct cond dynamic * readonly filled; struct item dynamic * locked(m) item; };
void taker(struct box * b) {
  lock(&*b->m);
  if (b->item == NULL) wait(b->filled, b->m);
  struct item private * mine = SCAST(struct item private *, b->item);
  unlock(&*b->m);
  print(mine->n);
}
void maker(struct box * b) {
  for (int k = 1; k < 3; k = k + 1) {
    struct item private * made = malloc(sizeof(struct item));
    made->n = k;
    int put = 0;
    while (put == 0) {
      lock(&*b->m);
      if (b->item == NULL) {
        b->item = SCAST(struct item dynamic *, made);
        signal(b->filled);
        put = 1;
      }
      unlock(&*b->m);
    }
  }
}
int main(void) {
  struct box * own = malloc(sizeof(struct box));
  own->m = malloc(sizeof(mutex));
  own->filled = malloc(sizeof(struct cond));
  struct box dynamic * b = SCAST(struct box dynamic *, own);
  int m = spawn(maker, b);
  int s = spawn(taker, b);
  int t = spawn(taker, b);
  join(m);
  join(s);
  join(t);
  return 0;
}
