# 2 "broken.c"
struct counter {
  mutex m;
  int locked(m) hits;
  int locked(m) * readonly history;
  struct counter dynamic * readonly next;
};

void fill(struct counter * c, struct counter * next) {
  c->history = malloc(4 * sizeof(int));
  c->next = next;
}

struct counter * counter(struct counter * next) {
  struct counter * c = malloc(sizeof(struct counter));
  fill(c, next);
  return SCAST(struct counter dynamic *, c);
}

void hit(struct counter * c, int by) {
  lock(&c->m);
  c->history[c->hits % 4] = by;
  c->hits = c->hits + 1;
  unlock(&c->m);
}

void work(struct counter * all) {
  struct counter * c = all;
  while (c != NULL) {
    hit(c, 7);
    c = c->next;
  }
}

int main(void) {
  struct counter * all = counter(counter(NULL));
  int a = spawn(work, all);
  int b = spawn(work, all);
  join(a);
  join(b);
  struct counter * c = all;
  while (c != NULL) {
    lock(&c->m);
    print(c->hits);
    print(c->history[0]);
    unlock(&c->m);
    c = c->next;
  }
  return 0;
}
