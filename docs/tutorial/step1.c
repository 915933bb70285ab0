# 2 "step1.c"
struct job {
  int n;
};

struct shop {
  mutex * m;
  struct cond * changed;
  struct job * next;
  long total;
  int limit;
  int closed;
};

void put(struct shop * s, struct job * j) {
  lock(&*s->m);
  while (s->next != NULL) wait(s->changed, s->m);
  s->next = j;
  broadcast(s->changed);
  unlock(&*s->m);
}

struct job * take(struct shop * s) {
  lock(&*s->m);
  while (s->next == NULL && !s->closed) wait(s->changed, s->m);
  struct job * j = s->next;
  s->next = NULL;
  broadcast(s->changed);
  unlock(&*s->m);
  return j;
}

void shut(struct shop * s) {
  lock(&*s->m);
  s->closed = 1;
  broadcast(s->changed);
  unlock(&*s->m);
}

void work(struct shop * s) {
  struct job * j = take(s);
  while (j != NULL) {
    if (j->n < s->limit) j->n = j->n * 2;
    lock(&*s->m);
    s->total = s->total + j->n;
    unlock(&*s->m);
    free(j);
    j = take(s);
  }
}

int main(void) {
  struct shop * s = malloc(sizeof(struct shop));
  s->m = malloc(sizeof(mutex));
  s->changed = malloc(sizeof(struct cond));
  s->limit = 10;
  int a = spawn(work, s);
  int b = spawn(work, s);
  for (int i = 1; i < 5; i = i + 1) {
    struct job * j = malloc(sizeof(struct job));
    j->n = i * 4;
    put(s, j);
  }
  shut(s);
  join(a);
  join(b);
  print(s->total);
  return 0;
}
