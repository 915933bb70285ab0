/* The cutter takes the two locks only once it has seen three rows, so the writer has to be held back at a later row. */
mutex table;
mutex log;
int locked(table) rows;
int locked(log) lines;
void writer(int n) {
  for (int i = 0; i < n; i = i + 1) {
    lock(&table);
    rows = rows + 1;
    lock(&log);
    lines = lines + 1;
    unlock(&log);
    unlock(&table);
  }
}
void cutter(int most) {
  lock(&table);
  int many = rows > most;
  unlock(&table);
  if (many) {
    lock(&log);
    lock(&table);
    lines = lines - rows;
    rows = 0;
    unlock(&table);
    unlock(&log);
  }
}
int main(void) {
  int w = spawn(writer, 6);
  int c = spawn(cutter, 2);
  join(w);
  join(c);
  return 0;
}
