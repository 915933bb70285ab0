/* stop
   The flag that says that the table is filled is set before the last entries are; readers come late. */
int racy ready;
int racy table[8];
void fill(int k) {
  for (int i = 0; i < 7; i = i + 1) table[i] = i + 1;
  ready = 1;
  table[7] = 8;
}
void use(int k) {
  for (int i = 0; i < 60; i = i + 1) ;
  if (ready) print(840 / table[7]);
}
int main(void) {
  int s = spawn(fill, 0);
  int t = spawn(use, 0);
  join(s);
  join(t);
  return 0;
}
