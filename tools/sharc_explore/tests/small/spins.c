/* A thread that waits in a loop for another, which has to have its turn for that. */
int racy f;
void w(int k) { f = 1; }
int main(void) {
  int t = spawn(w, 0);
  while (f == 0) ;
  return 0;
}
