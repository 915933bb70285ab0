/* race
   The last worker is never joined: the loop ends one too early, and main mostly reads the part after it was filled. */
int part[6];
void add(int k) {
  int sum = 0;
  for (int i = 0; i <= k * 10; i = i + 1) sum = sum + i;
  part[k * 2] = sum;
}
int main(void) {
  int first = spawn(add, 0);
  int second = spawn(add, 1);
  int third = spawn(add, 2);
  for (int t = first; t < third; t = t + 1) join(t);
  int wait = 0;
  while (wait < 60) wait = wait + 1;
  print(part[0] + part[2] + part[4]);
  return 0;
}
