/* output
   Looks for a free seat under the lock, and takes it under the lock, but lets go in between: both may get one seat. */
mutex m;
int locked(m) taken[4];
int find(int from) {
  for (int i = from; i < 4; i = i + 1) {
    lock(&m);
    int is = taken[i];
    unlock(&m);
    if (is == 0) return i;
  }
  return -1;
}
void book(int wait) {
  for (int i = 0; i < wait; i = i + 1) ;
  int seat = find(0);
  lock(&m);
  taken[seat] = taken[seat] + 1;
  unlock(&m);
}
int main(void) {
  int a = spawn(book, 0);
  int b = spawn(book, 25);
  join(a);
  join(b);
  lock(&m);
  int twice = taken[0];
  unlock(&m);
  print(twice);
  return 0;
}
