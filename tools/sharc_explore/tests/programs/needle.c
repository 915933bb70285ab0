/* stop
   The counter has to be caught at three values, with work in between: four switches at the right places. */
int racy x;
void count(int n) {
  for (int i = 1; i < 10; i = i + 1) x = i;
}
int main(void) {
  int t = spawn(count, 0);
  if (x == 2)
    if (x == 5)
      if (x == 8) print(1 / 0);
  join(t);
  return 0;
}
