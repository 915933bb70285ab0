/* report
   The owner waits for a count of finished users before it frees; a user counts itself one access too early. */
struct job { int racy n; };
struct desk { mutex m; struct job dynamic * locked(m) job; int racy done; };
void user(struct desk * d) {
  lock(&d->m);
  struct job * j = d->job;
  unlock(&d->m);
  int work = 0;
  while (work < j->n) work = work + 1;
  d->done = d->done + 1;
  print(j->n);
}
int main(void) {
  struct desk * d = malloc(sizeof(struct desk));
  struct job * j = malloc(sizeof(struct job));
  j->n = 20;
  lock(&d->m);
  d->job = SCAST(struct job dynamic *, j);
  unlock(&d->m);
  int t = spawn(user, d);
  while (d->done < 1) ;
  for (int i = 0; i < 10; i = i + 1) ;
  lock(&d->m);
  free(d->job);
  unlock(&d->m);
  join(t);
  return 0;
}
