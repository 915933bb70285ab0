/* deadlock
   A transfer locks the account that pays first, and each teller makes one transfer in its own direction. */
struct account { mutex m; long locked(m) balance; };
struct order { struct account dynamic * readonly from; struct account dynamic * readonly to; int readonly wait; };
void transfer(struct account * from, struct account * to, long amount) {
  lock(&from->m);
  if (from->balance >= amount) {
    lock(&to->m);
    from->balance = from->balance - amount;
    to->balance = to->balance + amount;
    unlock(&to->m);
  }
  unlock(&from->m);
}
void teller(struct order * o) {
  for (int i = 0; i < o->wait; i = i + 1) ;
  transfer(o->from, o->to, 10);
}
struct account * opened(long amount) {
  struct account * a = malloc(sizeof(struct account));
  lock(&a->m);
  a->balance = amount;
  unlock(&a->m);
  return a;
}
struct order * ordered(struct account * from, struct account * to, int wait) {
  struct order private * o = malloc(sizeof(struct order));
  o->from = from;
  o->to = to;
  o->wait = wait;
  return SCAST(struct order dynamic *, o);
}
int main(void) {
  struct account dynamic * one = opened(100);
  struct account dynamic * two = opened(100);
  int s = spawn(teller, ordered(one, two, 2));
  int t = spawn(teller, ordered(two, one, 60));
  join(s);
  join(t);
  return 0;
}
