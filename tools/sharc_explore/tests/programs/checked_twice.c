/* stop
   Made at the first use, with a look outside the lock before the one inside: the flag is set before the value is. */
mutex m;
int racy made;
int racy value;
int get(int k) {
  if (made == 0) {
    lock(&m);
    if (made == 0) {
      made = 1;
      value = 6;
    }
    unlock(&m);
  }
  return value;
}
void use(int wait) {
  for (int i = 0; i < wait; i = i + 1) ;
  print(60 / get(wait));
}
int main(void) {
  int a = spawn(use, 0);
  int b = spawn(use, 45);
  int c = spawn(use, 20);
  join(a);
  join(b);
  join(c);
  return 0;
}
