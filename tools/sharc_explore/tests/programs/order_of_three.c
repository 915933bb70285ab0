/* deadlock
   Three stages each hold their own lock and then want that of the next; the last one wants the first. */
mutex read;
mutex parsed;
mutex written;
int locked(read) lines;
int locked(parsed) trees;
int locked(written) files;
void reader(int k) {
  lock(&read);
  lines = lines + 1;
  lock(&parsed);
  trees = trees + lines;
  unlock(&parsed);
  unlock(&read);
}
void parser(int k) {
  for (int i = 0; i < k; i = i + 1) ;
  lock(&parsed);
  lock(&written);
  files = files + trees;
  unlock(&written);
  unlock(&parsed);
}
void writer(int k) {
  for (int i = 0; i < k; i = i + 1) ;
  lock(&written);
  if (files >= 0) {
    lock(&read);
    lines = 0;
    unlock(&read);
  }
  unlock(&written);
}
int main(void) {
  int a = spawn(reader, 0);
  int b = spawn(parser, 12);
  int c = spawn(writer, 30);
  join(a);
  join(b);
  join(c);
  return 0;
}
