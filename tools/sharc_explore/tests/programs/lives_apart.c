/* race
   Two writers of one global; the first is mostly gone when the second begins to write. */
int g;
void quick(int k) { g = k; }
void slow(int k) {
  for (int i = 0; i < 25; i = i + 1) ;
  g = k;
}
int main(void) {
  int s = spawn(quick, 1);
  int t = spawn(slow, 2);
  join(s);
  join(t);
  print(g);
  return 0;
}
