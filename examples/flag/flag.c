# 2 "flag.c"
struct state {
  int racy stop;
  mutex m;
  long locked(m) rounds;
};

struct state s;

void work(int step) {
  long n = 0;
  while (s.stop == 0) n = n + step;
  lock(&s.m);
  s.rounds = s.rounds + n;
  unlock(&s.m);
}

int main(void) {
  int a = spawn(work, 1);
  int b = spawn(work, 2);
  s.stop = 1;
  join(a);
  join(b);
  lock(&s.m);
  print(s.rounds >= 0);
  unlock(&s.m);
  return 0;
}
