/* Two orders of two mutexes, each with a third around both: no thread waits for the other with a lock that it needs. */
mutex gate;
mutex first;
mutex second;
long locked(first) one;
long locked(second) two;

void forward(int amount) {
  lock(&gate);
  lock(&first);
  lock(&second);
  one = one - amount;
  two = two + amount;
  unlock(&second);
  unlock(&first);
  unlock(&gate);
}

void backward(int amount) {
  lock(&gate);
  lock(&second);
  lock(&first);
  one = one + amount;
  two = two - amount;
  unlock(&first);
  unlock(&second);
  unlock(&gate);
}

int main(void) {
  int a = spawn(forward, 3);
  int b = spawn(backward, 1);
  join(a);
  join(b);
  return 0;
}
