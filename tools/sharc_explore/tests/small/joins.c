/* One of each thing that the twin tells. */
void w(int k) { print(k); }
int main(void) {
  if (1) join(spawn(w, 5)); else ;
  return 0;
}
