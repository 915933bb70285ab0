# 2 "broken.c"
struct task {
  mutex * readonly m;
  int locked(m) n;
  long locked(m) result;
  struct task dynamic * locked(m) next;
};

struct pool {
  mutex * readonly m;
  struct cond * readonly filled;
  struct cond * readonly idle;
  struct task dynamic * locked(m) first;
  struct task dynamic * locked(m) last;
  struct task dynamic * locked(m) done;
  int locked(m) unfinished;
  int locked(m) closing;
};

struct pool * new_pool(void) {
  struct pool * p = malloc(sizeof(struct pool));
  p->m = malloc(sizeof(mutex));
  p->filled = malloc(sizeof(struct cond));
  p->idle = malloc(sizeof(struct cond));
  return SCAST(struct pool dynamic *, p);
}

void append(struct pool * p, struct task * t) {
  if (p->last == NULL) p->first = t; else p->last->next = t;
  p->last = t;
  p->unfinished = p->unfinished + 1;
}

void submit(struct pool * p, int n) {
  struct task * t = malloc(sizeof(struct task));
  t->m = p->m;
  t->n = n;
  lock(&*p->m);
  append(p, SCAST(struct task dynamic *, t));
  signal(p->filled);
  unlock(&*p->m);
}

struct task * take(struct pool * p) {
  lock(&*p->m);
  while (p->first == NULL && !p->closing) wait(p->filled, p->m);
  struct task * t = p->first;
  if (t != NULL) {
    p->first = t->next;
    if (p->first == NULL) p->last = NULL;
    t->next = NULL;
  }
  unlock(&*p->m);
  return SCAST(struct task private *, t);
}

void finish(struct pool * p, struct task * t) {
  lock(&*p->m);
  t->next = p->done;
  p->done = SCAST(struct task dynamic *, t);
  unlock(&*p->m);
  p->unfinished = p->unfinished - 1;
  if (p->unfinished == 0) signal(p->idle);
}

int divisors(int n) {
  int count = 0;
  for (int i = 1; i <= n; i = i + 1) {
    if (n % i == 0) count = count + 1;
  }
  return count;
}

void work(struct pool * p) {
  struct task * t = take(p);
  while (t != NULL) {
    t->result = divisors(t->n);
    finish(p, SCAST(struct task private *, t));
    t = take(p);
  }
}

long collect(struct pool * p) {
  long sum = 0;
  lock(&*p->m);
  while (p->unfinished > 0) wait(p->idle, p->m);
  while (p->done != NULL) {
    struct task * t = SCAST(struct task private *, p->done);
    p->done = t->next;
    sum = sum + t->result;
    free(t);
  }
  unlock(&*p->m);
  return sum;
}

void shut(struct pool * p) {
  lock(&*p->m);
  p->closing = 1;
  broadcast(p->filled);
  unlock(&*p->m);
}

int main(void) {
  struct pool * p = new_pool();
  int a = spawn(work, p);
  int b = spawn(work, p);
  int c = spawn(work, p);
  for (int n = 1; n <= 12; n = n + 1) submit(p, n);
  print(collect(p));
  submit(p, 60);
  print(collect(p));
  shut(p);
  join(a);
  join(b);
  join(c);
  return 0;
}
