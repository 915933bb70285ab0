/* deadlock
   A transfer locks the account that pays first, and the auditor locks all accounts in the order of their numbers. */
struct account { mutex m; long locked(m) balance; };
struct bank { struct account dynamic * readonly * readonly accounts; };
void transfer(struct account * from, struct account * to, long amount) {
  lock(&from->m);
  lock(&to->m);
  from->balance = from->balance - amount;
  to->balance = to->balance + amount;
  unlock(&to->m);
  unlock(&from->m);
}
void teller(struct bank * b) {
  for (int i = 0; i < 3; i = i + 1) transfer(b->accounts[i], b->accounts[(i + 1) % 3], 10);
}
void auditor(struct bank * b) {
  long sum = 0;
  for (int i = 0; i < 3; i = i + 1) {
    lock(&b->accounts[i]->m);
    sum = sum + b->accounts[i]->balance;
  }
  for (int i = 0; i < 3; i = i + 1) unlock(&b->accounts[i]->m);
  print(sum);
}
struct account * opened(long amount) {
  struct account * a = malloc(sizeof(struct account));
  lock(&a->m);
  a->balance = amount;
  unlock(&a->m);
  return SCAST(struct account dynamic *, a);
}
int main(void) {
  struct bank * b = malloc(sizeof(struct bank));
  struct account * * all = malloc(3 * sizeof(struct account *));
  for (int i = 0; i < 3; i = i + 1) all[i] = opened(100);
  b->accounts = SCAST(struct account dynamic * readonly *, all);
  struct bank dynamic * shared = SCAST(struct bank dynamic *, b);
  int s = spawn(teller, shared);
  int t = spawn(auditor, shared);
  join(s);
  join(t);
  return 0;
}
