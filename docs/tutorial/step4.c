# 2 "step4.c"
struct job {
  int n;
};

struct shop {
  mutex * readonly m;
  struct cond dynamic * readonly changed;
  struct job dynamic * locked(m) next;
  long locked(m) total;
  int readonly limit;
  int locked(m) closed;
};

void put(struct shop * s, struct job * j) {
  lock(&*s->m);
  while (s->next != NULL) wait(s->changed, s->m);
  s->next = SCAST(struct job dynamic *, j);
  broadcast(s->changed);
  unlock(&*s->m);
}

struct job * take(struct shop * s) {
  lock(&*s->m);
  while (s->next == NULL && !s->closed) wait(s->changed, s->m);
  struct job * j = SCAST(struct job private *, s->next);
  broadcast(s->changed);
  unlock(&*s->m);
  return j;
}

void shut(struct shop * s) {
  lock(&*s->m);
  s->closed = 1;
  broadcast(s->changed);
  unlock(&*s->m);
}

void work(struct shop * s) {
  struct job * j = take(s);
  while (j != NULL) {
    if (j->n < s->limit) j->n = j->n * 2;
    lock(&*s->m);
    s->total = s->total + j->n;
    unlock(&*s->m);
    free(j);
    j = take(s);
  }
}

int main(void) {
  struct shop * own = malloc(sizeof(struct shop));
  own->m = malloc(sizeof(mutex));
  own->changed = malloc(sizeof(struct cond));
  own->limit = 10;
  struct shop * s = SCAST(struct shop dynamic *, own);
  int a = spawn(work, s);
  int b = spawn(work, s);
  for (int i = 1; i < 5; i = i + 1) {
    struct job * j = malloc(sizeof(struct job));
    j->n = i * 4;
    put(s, SCAST(struct job private *, j));
  }
  shut(s);
  join(a);
  join(b);
  print(s->total);
  return 0;
}
