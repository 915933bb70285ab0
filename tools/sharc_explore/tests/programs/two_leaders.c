/* output
   The first to come is to lead: the word is read and then set, and two may read it before one sets it. */
int racy leader;
int racy led;
void candidate(int me) {
  for (int i = 0; i < me * 15; i = i + 1) ;
  int seen = leader;
  if (seen == 0) {
    leader = me;
    led = led + 1;
  }
}
int main(void) {
  int a = spawn(candidate, 1);
  int b = spawn(candidate, 2);
  int c = spawn(candidate, 3);
  join(a);
  join(b);
  join(c);
  print(led);
  return 0;
}
