# 2 "lru.c"
struct entry {
  mutex * readonly m;
  int readonly key;
  long readonly value;
  struct entry dynamic * locked(m) chain;
  struct entry dynamic * locked(m) newer;
  struct entry dynamic * locked(m) older;
};

struct bucket {
  mutex * readonly m;
  struct entry dynamic * locked(m) first;
};

struct cache {
  mutex * readonly m;
  struct bucket dynamic * readonly buckets;
  int readonly size;
  int readonly capacity;
  int locked(m) count;
  long locked(m) lookups;
  struct entry dynamic * locked(m) newest;
  struct entry dynamic * locked(m) oldest;
};

struct cache * new_cache(int size, int capacity) {
  struct cache * c = malloc(sizeof(struct cache));
  struct bucket * own = malloc(size * sizeof(struct bucket));
  c->m = malloc(sizeof(mutex));
  for (int i = 0; i < size; i = i + 1) own[i].m = c->m;
  c->buckets = SCAST(struct bucket dynamic *, own);
  c->size = size;
  c->capacity = capacity;
  return SCAST(struct cache dynamic *, c);
}

struct entry * new_entry(mutex * m, int key, long value) {
  struct entry * e = malloc(sizeof(struct entry));
  e->m = m;
  e->key = key;
  e->value = value;
  return SCAST(struct entry dynamic *, e);
}

void link_newest(struct cache * c, struct entry * e) {
  e->older = c->newest;
  if (c->newest != NULL) c->newest->newer = e; else c->oldest = e;
  c->newest = e;
}

void unlink_entry(struct cache * c, struct entry * e) {
  if (e->newer != NULL) e->newer->older = e->older; else c->newest = e->older;
  if (e->older != NULL) e->older->newer = e->newer; else c->oldest = e->newer;
  e->newer = NULL;
  e->older = NULL;
}

struct entry * find(struct cache * c, int key) {
  struct entry * e = c->buckets[key % c->size].first;
  while (e != NULL && e->key != key) e = e->chain;
  return e;
}

void unchain(struct cache * c, struct entry * e) {
  int b = e->key % c->size;
  if (c->buckets[b].first == e) {
    c->buckets[b].first = e->chain;
  } else {
    struct entry * at = c->buckets[b].first;
    while (at->chain != e) at = at->chain;
    at->chain = e->chain;
  }
}

void evict_oldest(struct cache * c) {
  struct entry * e = c->oldest;
  unlink_entry(c, e);
  unchain(c, e);
  c->count = c->count - 1;
  free(e);
}

void insert(struct cache * c, int key, long value) {
  if (c->count == c->capacity) evict_oldest(c);
  struct entry * e = new_entry(c->m, key, value);
  e->chain = c->buckets[key % c->size].first;
  c->buckets[key % c->size].first = e;
  link_newest(c, e);
  c->count = c->count + 1;
}

long compute(int key) {
  return key * key % 100;
}

long cached(struct cache * c, int key) {
  struct entry * e = find(c, key);
  if (e == NULL) return -1;
  unlink_entry(c, e);
  link_newest(c, e);
  return e->value;
}

long get(struct cache * c, int key) {
  lock(&*c->m);
  c->lookups = c->lookups + 1;
  long value = cached(c, key);
  unlock(&*c->m);
  if (value < 0) {
    value = compute(key);
    lock(&*c->m);
    if (find(c, key) == NULL) insert(c, key, value);
    unlock(&*c->m);
  }
  return value;
}

void use(struct cache * c) {
  int key = 3;
  for (int i = 0; i < 12; i = i + 1) {
    key = (key * 7 + i) % 10;
    if (get(c, key) != compute(key)) print(-key);
  }
}

int main(void) {
  struct cache * c = new_cache(4, 5);
  int a = spawn(use, c);
  int b = spawn(use, c);
  join(a);
  join(b);
  lock(&*c->m);
  print(c->lookups);
  print(c->count);
  unlock(&*c->m);
  return 0;
}
