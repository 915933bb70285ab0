# 2 "broken.c"
struct node {
  mutex m;
  int readonly key;
  int locked(m) count;
  struct node dynamic * locked(m) left;
  struct node dynamic * locked(m) right;
};

struct tree {
  mutex m;
  struct node dynamic * locked(m) root;
  int locked(m) additions;
};

struct job {
  struct tree dynamic * readonly tree;
  int readonly first;
  int readonly step;
};

struct node * new_node(int key) {
  struct node * n = malloc(sizeof(struct node));
  n->key = key;
  return SCAST(struct node dynamic *, n);
}

struct job * new_job(struct tree * t, int first, int step) {
  struct job * j = malloc(sizeof(struct job));
  j->tree = t;
  j->first = first;
  j->step = step;
  return SCAST(struct job dynamic *, j);
}

struct node * child(struct node * n, int key) {
  if (key < n->key) return n->left;
  return n->right;
}

void grow(struct node * n, int key) {
  if (key < n->key) n->left = new_node(key); else n->right = new_node(key);
}

void add(struct tree * t, int key) {
  lock(&t->m);
  if (t->root == NULL) t->root = new_node(key);
  struct node * n = t->root;
  lock(&n->m);
  unlock(&t->m);
  while (n->key != key) {
    if (child(n, key) == NULL) grow(n, key);
    struct node * next = child(n, key);
    lock(&next->m);
    unlock(&n->m);
    n = next;
  }
  n->count = n->count + 1;
  lock(&t->m);
  t->additions = t->additions + 1;
  unlock(&t->m);
  unlock(&n->m);
}

int look(struct tree * t, int key) {
  lock(&t->m);
  struct node * n = t->root;
  if (n != NULL) lock(&n->m);
  unlock(&t->m);
  while (n != NULL && n->key != key) {
    struct node * next = child(n, key);
    if (next != NULL) lock(&next->m);
    unlock(&n->m);
    n = next;
  }
  if (n == NULL) return 0;
  int count = n->count;
  unlock(&n->m);
  return count;
}

void fill(struct job * j) {
  int key = j->first;
  for (int i = 0; i < 14; i = i + 1) {
    add(j->tree, key % 17);
    key = key + j->step;
  }
}

void search(struct tree * t) {
  for (int key = 0; key < 17; key = key + 1) {
    if (look(t, key) > 28) print(-key);
  }
}

int total(struct node * n) {
  if (n == NULL) return 0;
  lock(&n->m);
  int count = n->count;
  struct node * left = n->left;
  struct node * right = n->right;
  unlock(&n->m);
  return count + total(left) + total(right);
}

int main(void) {
  struct tree * t = malloc(sizeof(struct tree));
  int a = spawn(fill, new_job(t, 8, 5));
  int b = spawn(fill, new_job(t, 3, 7));
  int c = spawn(search, t);
  join(a);
  join(b);
  join(c);
  lock(&t->m);
  print(t->additions);
  print(total(t->root));
  unlock(&t->m);
  return 0;
}
