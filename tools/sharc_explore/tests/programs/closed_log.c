/* stop
   A writer looks whether the log is open, then writes; the owner closes it and frees the buffer in between. */
struct log { mutex m; int locked(m) * locked(m) lines; int racy open; };
void note(struct log * l) {
  for (int i = 0; i < 15; i = i + 1) {
    if (l->open) {
      lock(&l->m);
      l->lines[i % 4] = i;
      unlock(&l->m);
    }
  }
}
int main(void) {
  struct log * l = malloc(sizeof(struct log));
  lock(&l->m);
  l->lines = malloc(4 * sizeof(int));
  l->open = 1;
  unlock(&l->m);
  int t = spawn(note, l);
  l->open = 0;
  lock(&l->m);
  free(l->lines);
  unlock(&l->m);
  join(t);
  return 0;
}
