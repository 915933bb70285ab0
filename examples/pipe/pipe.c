struct buf { int n; };
struct stage {
  mutex m;
  struct buf locked(m) * locked(m) b;
};
void twice(struct stage * s) {
  lock(&s->m);
  struct buf * p = SCAST(struct buf *, s->b);
  p->n = p->n * 2;
  s->b = SCAST(struct buf locked(s->m) *, p);
  unlock(&s->m);
}
int main(void) {
  struct stage * s = malloc(sizeof(struct stage));
  struct buf * p = malloc(sizeof(struct buf));
  p->n = 21;
  lock(&s->m);
  s->b = SCAST(struct buf locked(s->m) *, p);
  unlock(&s->m);
  join(spawn(twice, s));
  return 0;
}
