/* stop
   Looks at the balance under the lock, lets go, pays later: another payment may come between. */
mutex m;
int locked(m) balance = 100;
void pay(int wait) {
  for (int i = 0; i < wait; i = i + 1) ;
  lock(&m);
  int enough = balance >= 60;
  unlock(&m);
  if (enough) {
    lock(&m);
    balance = balance - 60;
    print(10 / (balance >= 0));
    unlock(&m);
  }
}
int main(void) {
  int a = spawn(pay, 0);
  int b = spawn(pay, 12);
  join(a);
  join(b);
  return 0;
}
