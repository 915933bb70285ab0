# 2 "logger.c"
struct record {
  int level;
  int text;
  struct record * next;
};

struct log {
  mutex * readonly m;
  struct cond * readonly filled;
  struct record dynamic * locked(m) newest;
  int locked(m) closing;
  int racy level;
  long written;
};

struct client {
  struct log dynamic * readonly log;
  int readonly id;
};

struct log * new_log(int level) {
  struct log * l = malloc(sizeof(struct log));
  l->m = malloc(sizeof(mutex));
  l->filled = malloc(sizeof(struct cond));
  l->level = level;
  return SCAST(struct log dynamic *, l);
}

struct client * new_client(struct log * l, int id) {
  struct client * c = malloc(sizeof(struct client));
  c->log = l;
  c->id = id;
  return SCAST(struct client dynamic *, c);
}

void hand_over(struct log * l, struct record * r) {
  lock(&*l->m);
  r->next = l->newest;
  l->newest = SCAST(struct record dynamic *, r);
  signal(l->filled);
  unlock(&*l->m);
}

void say(struct log * l, int level, int text) {
  if (level >= l->level) {
    struct record * r = malloc(sizeof(struct record));
    r->level = level;
    r->text = text;
    hand_over(l, SCAST(struct record private *, r));
  }
}

struct record * take_all(struct log * l) {
  lock(&*l->m);
  while (l->newest == NULL && !l->closing) wait(l->filled, l->m);
  struct record private * all = SCAST(struct record private *, l->newest);
  unlock(&*l->m);
  return all;
}

void write_out(struct log * l, struct record private * first) {
  struct record private * r = SCAST(struct record private *, first);
  while (r != NULL) {
    if (r->level > 2) print(r->text);
    l->written = l->written + 1;
    struct record private * next = SCAST(struct record private *, r->next);
    free(r);
    r = next;
  }
}

void log_all(struct log * l) {
  struct record private * all = take_all(l);
  while (all != NULL) {
    write_out(l, SCAST(struct record private *, all));
    all = take_all(l);
  }
}

void serve(struct client * c) {
  for (int i = 0; i < 9; i = i + 1) say(c->log, i % 3, c->id * 100 + i);
}

void shut(struct log * l) {
  lock(&*l->m);
  l->closing = 1;
  signal(l->filled);
  unlock(&*l->m);
}

int main(void) {
  struct log * l = new_log(1);
  int t = spawn(log_all, l);
  int a = spawn(serve, new_client(l, 1));
  int b = spawn(serve, new_client(l, 2));
  join(a);
  join(b);
  l->level = 3;
  say(l, 2, 7);
  say(l, 3, 8);
  shut(l);
  join(t);
  print(l->written);
  return 0;
}
