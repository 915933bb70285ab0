/* stop
   A stack of free numbers without a lock: top is read, and set later; a pop and a push in between bring the old top
   back, and what was below it is lost (ABA). */
int racy top = 1;
int racy below[4];
int racy used[4];
int racy sum;
mutex m;
int pop(int wait) {
  int done = 0;
  int old = 0;
  while (done == 0) {
    old = top;
    int next = below[old];
    for (int i = 0; i < wait; i = i + 1) ;
    lock(&m);
    if (top == old) {
      top = next;
      done = 1;
    }
    unlock(&m);
  }
  return old;
}
void push(int n) {
  lock(&m);
  below[n] = top;
  top = n;
  unlock(&m);
}
void slow(int k) {
  int a = pop(3);
  used[a] = used[a] + 1;
}
void quick(int k) {
  int a = pop(0);
  int b = pop(0);
  used[b] = 1;
  push(a);
}
int main(void) {
  below[1] = 2;
  below[2] = 3;
  int s = spawn(slow, 0);
  int q = spawn(quick, 0);
  join(s);
  join(q);
  print(100 / (used[top] == 0));
  return 0;
}
