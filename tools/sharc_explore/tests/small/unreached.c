/* Which lines are told as not reached: not the call and the print of one line, nor what uses locals alone. */
int racy x;
int twice(int n) { return n * 2; }
void refuse(int n) {
  x = n;
  int k = n;
  if (k) print(x);
}
int main(void) {
  int k = 3;
  if (twice(k) != 6) print(k);
  if (x) {
    k = 4;
    refuse(k);
    x = x + k;
  }
  return 0;
}
