/* deadlock
   Five philosophers, each thinks for another time before the forks are taken left first. */
mutex fork[5];
void dine(int k) {
  for (int i = 0; i < k * 6; i = i + 1) ;
  lock(&fork[k]);
  lock(&fork[(k + 1) % 5]);
  unlock(&fork[(k + 1) % 5]);
  unlock(&fork[k]);
}
int main(void) {
  int a = spawn(dine, 0);
  int b = spawn(dine, 1);
  int c = spawn(dine, 2);
  int d = spawn(dine, 3);
  int e = spawn(dine, 4);
  join(a); join(b); join(c); join(d); join(e);
  return 0;
}
