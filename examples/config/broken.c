# 2 "broken.c"
struct config {
  int readonly workers;
  int readonly limit;
};

mutex m;
long locked(m) total;

void work(struct config * c) {
  long sum = 0;
  for (int i = 1; i <= c->limit; i = i + 1) sum = sum + i;
  lock(&m);
  total = total + sum / c->workers;
  unlock(&m);
}

int main(void) {
  struct config * own = malloc(sizeof(struct config));
  own->workers = 3;
  own->limit = 9;
  struct config * c = SCAST(struct config dynamic *, own);
  int a = spawn(work, c);
  int b = spawn(work, c);
  int d = spawn(work, c);
  c->limit = 20;
  join(a);
  join(b);
  join(d);
  lock(&m);
  print(total);
  unlock(&m);
  return 0;
}
