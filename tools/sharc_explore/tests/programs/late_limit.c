/* stop
   main fills in the limit right after the spawn; the thread needs it only after a long stretch of its own. */
int racy limit;
void work(int n) {
  int sum = 0;
  for (int i = 0; i < 30; i = i + 1) sum = sum + i;
  print(sum / limit);
}
int main(void) {
  int t = spawn(work, 1);
  limit = 5;
  join(t);
  return 0;
}
