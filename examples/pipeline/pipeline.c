# 2 "pipeline.c"
struct buf {
  int n;
};

struct slot {
  mutex m;
  struct buf locked(m) * locked(m) b;
};

struct stage {
  struct slot dynamic * readonly in;
  struct slot dynamic * readonly out;
  int readonly step;
};

struct buf * take(struct slot * s) {
  struct buf * p = NULL;
  while (p == NULL) {
    lock(&s->m);
    p = SCAST(struct buf *, s->b);
    unlock(&s->m);
  }
  return p;
}

void put(struct slot * s, struct buf * p) {
  int done = 0;
  while (!done) {
    lock(&s->m);
    if (s->b == NULL) {
      s->b = SCAST(struct buf locked(s->m) *, p);
      done = 1;
    }
    unlock(&s->m);
  }
}

void work(struct stage * g) {
  for (int i = 0; i < 3; i = i + 1) {
    struct buf * p = take(g->in);
    p->n = p->n * 10 + g->step;
    put(g->out, SCAST(struct buf *, p));
  }
}

struct stage * stage(struct slot * in, struct slot * out, int step) {
  struct stage * g = malloc(sizeof(struct stage));
  g->in = in;
  g->out = out;
  g->step = step;
  return SCAST(struct stage dynamic *, g);
}

int main(void) {
  struct slot * first = malloc(sizeof(struct slot));
  struct slot * middle = malloc(sizeof(struct slot));
  struct slot * last = malloc(sizeof(struct slot));
  int a = spawn(work, stage(first, middle, 1));
  int b = spawn(work, stage(middle, last, 2));
  for (int i = 0; i < 3; i = i + 1) {
    struct buf * p = malloc(sizeof(struct buf));
    p->n = i;
    put(first, SCAST(struct buf *, p));
  }
  for (int i = 0; i < 3; i = i + 1) {
    struct buf * p = take(last);
    print(p->n);
    free(p);
  }
  join(a);
  join(b);
  return 0;
}
