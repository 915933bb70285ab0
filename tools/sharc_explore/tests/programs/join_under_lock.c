/* deadlock
   main joins the worker with the log's lock held; the worker writes a last line only if it sees the end early. */
mutex log;
int locked(log) lines;
int racy ending;
void worker(int k) {
  int rounds = 0;
  while (ending == 0 && rounds < 25) rounds = rounds + 1;
  if (ending) {
    lock(&log);
    lines = lines + 1;
    unlock(&log);
  }
}
int main(void) {
  int t = spawn(worker, 0);
  for (int i = 0; i < 80; i = i + 1) ;
  lock(&log);
  ending = 1;
  join(t);
  print(lines);
  unlock(&log);
  return 0;
}
