/* stop
   Both halves of a pair are changed under the lock, but one after the other: a reader may see the sum in between. */
mutex m;
int locked(m) left = 50;
int locked(m) right = 50;
void move(int n) {
  for (int i = 0; i < n; i = i + 1) ;
  lock(&m);
  left = left - n;
  unlock(&m);
  lock(&m);
  right = right + n;
  unlock(&m);
}
void audit(int wait) {
  for (int i = 0; i < wait; i = i + 1) ;
  lock(&m);
  int sum = left + right;
  unlock(&m);
  print(1000 / (sum == 100));
}
int main(void) {
  int a = spawn(move, 5);
  int b = spawn(audit, 70);
  join(a);
  join(b);
  return 0;
}
