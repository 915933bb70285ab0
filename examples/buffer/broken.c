# 2 "broken.c"
struct message {
  int from;
  int number;
};

struct slot {
  mutex * readonly m;
  struct message dynamic * locked(m) held;
};

struct buffer {
  mutex * readonly m;
  struct cond * readonly not_empty;
  struct cond * readonly not_full;
  struct slot dynamic * readonly ring;
  int readonly size;
  int locked(m) first;
  int locked(m) count;
  int locked(m) producers;
};

struct job {
  struct buffer dynamic * readonly buffer;
  int readonly id;
  int readonly messages;
  long sum;
};

struct buffer * new_buffer(int size, int producers) {
  struct buffer * b = malloc(sizeof(struct buffer));
  struct slot * own = malloc(size * sizeof(struct slot));
  b->m = malloc(sizeof(mutex));
  b->not_empty = malloc(sizeof(struct cond));
  b->not_full = malloc(sizeof(struct cond));
  for (int i = 0; i < size; i = i + 1) own[i].m = b->m;
  b->ring = SCAST(struct slot dynamic *, own);
  b->size = size;
  b->producers = producers;
  return SCAST(struct buffer dynamic *, b);
}

struct job * new_job(struct buffer * b, int id, int messages) {
  struct job * j = malloc(sizeof(struct job));
  j->buffer = b;
  j->id = id;
  j->messages = messages;
  return SCAST(struct job dynamic *, j);
}

void put(struct buffer * b, struct message * x) {
  lock(&*b->m);
  while (b->count == b->size) wait(b->not_full, b->m);
  b->ring[(b->first + b->count) % b->size].held = SCAST(struct message dynamic *, x);
  b->count = b->count + 1;
  signal(b->not_empty);
  unlock(&*b->m);
}

struct message * take(struct buffer * b) {
  struct message * x = NULL;
  lock(&*b->m);
  while (b->count == 0 && b->producers > 0) wait(b->not_empty, b->m);
  if (b->count > 0) {
    x = SCAST(struct message private *, b->ring[b->first].held);
    b->first = (b->first + 1) % b->size;
    b->count = b->count - 1;
  }
  unlock(&*b->m);
  return x;
}

void leave(struct buffer * b) {
  lock(&*b->m);
  b->producers = b->producers - 1;
  broadcast(b->not_empty);
  unlock(&*b->m);
}

void produce(struct job * j) {
  for (int i = 1; i <= j->messages; i = i + 1) {
    struct message * x = malloc(sizeof(struct message));
    x->from = j->id;
    x->number = i;
    put(j->buffer, SCAST(struct message private *, x));
  }
  leave(j->buffer);
}

void consume(struct job * j) {
  struct message * x = take(j->buffer);
  while (x != NULL) {
    j->sum = j->sum + x->from * 100 + x->number;
    free(x);
    x = take(j->buffer);
  }
}

int main(void) {
  struct buffer * b = new_buffer(3, 2);
  struct job * one = new_job(b, 3, 0);
  struct job * two = new_job(b, 4, 0);
  int p = spawn(produce, new_job(b, 1, 8));
  int q = spawn(produce, new_job(b, 2, 6));
  int c = spawn(consume, one);
  int d = spawn(consume, two);
  join(p);
  join(q);
  join(c);
  join(d);
  print(one->sum + two->sum);
  return 0;
}
