/* stop
   The table is made by main after the workers were started; a worker that is quick finds none. */
struct table { mutex m; struct entry dynamic * locked(m) entry; };
struct entry { int n; };
void worker(struct table * t) {
  int sum = 0;
  for (int i = 0; i < 40; i = i + 1) sum = sum + i;
  lock(&t->m);
  struct entry * e = t->entry;
  unlock(&t->m);
  print(e->n + sum);
}
int main(void) {
  struct table * t = malloc(sizeof(struct table));
  int a = spawn(worker, t);
  struct entry * e = malloc(sizeof(struct entry));
  e->n = 7;
  lock(&t->m);
  t->entry = SCAST(struct entry dynamic *, e);
  unlock(&t->m);
  join(a);
  return 0;
}
