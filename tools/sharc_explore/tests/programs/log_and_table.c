/* deadlock
   A row is logged under the table's lock, and the log is cut under its own. The cutter looks at the table before: a
   writer that stays where it has the table's lock keeps it from the log. */
mutex table;
mutex log;
int locked(table) rows;
int locked(log) lines;
void writer(int n) {
  for (int i = 0; i < n; i = i + 1) {
    lock(&table);
    rows = rows + 1;
    lock(&log);
    lines = lines + 1;
    unlock(&log);
    unlock(&table);
  }
}
void cutter(int k) {
  lock(&table);
  int seen = rows;
  unlock(&table);
  for (int i = 0; i < k; i = i + 1) ;
  lock(&log);
  lock(&table);
  lines = lines - seen;
  unlock(&table);
  unlock(&log);
}
int main(void) {
  int w = spawn(writer, 3);
  int c = spawn(cutter, 40);
  join(w);
  join(c);
  return 0;
}
