/* stop
   Two threads add to a racy counter without a lock: an addition is lost in most interleavings. */
int racy n;
void add(int k) {
  for (int i = 0; i < 10; i = i + 1) n = n + 1;
}
int main(void) {
  int a = spawn(add, 0);
  int b = spawn(add, 0);
  join(a); join(b);
  print(1 / (n == 20));
  return 0;
}
