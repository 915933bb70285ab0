# 2 "broken.c"
struct account {
  mutex m;
  int readonly number;
  long locked(m) balance;
};

struct bank {
  int readonly count;
  struct account dynamic * readonly * readonly accounts;
};

struct teller {
  struct bank dynamic * readonly bank;
  int readonly first;
};

struct account * new_account(int number, long balance) {
  struct account * a = malloc(sizeof(struct account));
  a->number = number;
  lock(&a->m);
  a->balance = balance;
  unlock(&a->m);
  return SCAST(struct account dynamic *, a);
}

struct bank * new_bank(int count) {
  struct bank * b = malloc(sizeof(struct bank));
  struct account * * table = malloc(count * sizeof(struct account *));
  for (int i = 0; i < count; i = i + 1) table[i] = new_account(i, 100);
  b->count = count;
  b->accounts = SCAST(struct account dynamic * readonly *, table);
  return SCAST(struct bank dynamic *, b);
}

struct teller * new_teller(struct bank * b, int first) {
  struct teller * t = malloc(sizeof(struct teller));
  t->bank = b;
  t->first = first;
  return SCAST(struct teller dynamic *, t);
}

void transfer(struct account * from, struct account * to, long amount) {
  lock(&from->m);
  if (from->balance >= amount) {
    from->balance = from->balance - amount;
    to->balance = to->balance + amount;
  }
  unlock(&from->m);
}

void tell(struct teller * t) {
  struct bank * b = t->bank;
  for (int i = t->first; i < t->first + 12; i = i + 1) {
    int from = i * 7 % b->count;
    int to = (from + 1 + i % 2) % b->count;
    transfer(b->accounts[from], b->accounts[to], i * 31 % 90);
  }
}

long total(struct bank * b) {
  long sum = 0;
  for (int i = 0; i < b->count; i = i + 1) lock(&b->accounts[i]->m);
  for (int i = 0; i < b->count; i = i + 1) sum = sum + b->accounts[i]->balance;
  for (int i = 0; i < b->count; i = i + 1) unlock(&b->accounts[i]->m);
  return sum;
}

void audit_accounts(struct bank * b) {
  for (int i = 0; i < 5; i = i + 1) {
    if (total(b) != 400) print(-1);
  }
}

int main(void) {
  struct bank * b = new_bank(4);
  int x = spawn(audit_accounts, b);
  int s = spawn(tell, new_teller(b, 1));
  int t = spawn(tell, new_teller(b, 20));
  join(s);
  join(t);
  join(x);
  print(total(b));
  return 0;
}
