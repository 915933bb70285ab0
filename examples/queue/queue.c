# 2 "queue.c"
struct cell {
  mutex racy * readonly m;
  int locked(m) n;
};

struct queue {
  mutex racy * readonly m;
  struct cond dynamic * readonly filled;
  struct cond dynamic * readonly drained;
  struct cell dynamic * readonly cells;
  int locked(m) first;
  int locked(m) count;
};

void put(struct queue * q, int v) {
  lock(&*q->m);
  while (q->count == 4) wait(q->drained, q->m);
  q->cells[(q->first + q->count) % 4].n = v;
  q->count = q->count + 1;
  signal(q->filled);
  unlock(&*q->m);
}

int get(struct queue * q) {
  lock(&*q->m);
  while (q->count == 0) wait(q->filled, q->m);
  int v = q->cells[q->first].n;
  q->first = (q->first + 1) % 4;
  q->count = q->count - 1;
  signal(q->drained);
  unlock(&*q->m);
  return v;
}

void produce(struct queue * q) {
  for (int i = 1; i < 11; i = i + 1) put(q, i * i);
}

int main(void) {
  mutex * m = malloc(sizeof(mutex));
  struct cell * cells = malloc(4 * sizeof(struct cell));
  for (int i = 0; i < 4; i = i + 1) cells[i].m = m;
  struct queue * own = malloc(sizeof(struct queue));
  own->m = m;
  own->filled = malloc(sizeof(struct cond));
  own->drained = malloc(sizeof(struct cond));
  own->cells = SCAST(struct cell dynamic *, cells);
  struct queue * q = SCAST(struct queue dynamic *, own);
  int t = spawn(produce, q);
  for (int i = 1; i < 11; i = i + 1) print(get(q));
  join(t);
  return 0;
}
