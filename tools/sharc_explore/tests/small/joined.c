/* Two orders of two mutexes, one after the other: main joins each thread before it starts the next. */
mutex first;
mutex second;
long locked(first) one;
long locked(second) two;

void forward(int amount) {
  lock(&first);
  lock(&second);
  one = one - amount;
  two = two + amount;
  unlock(&second);
  unlock(&first);
}

void backward(int amount) {
  lock(&second);
  lock(&first);
  one = one + amount;
  two = two - amount;
  unlock(&first);
  unlock(&second);
}

int main(void) {
  for (int i = 0; i < 3; i = i + 1) {
    join(spawn(forward, 3));
    join(spawn(backward, 1));
  }
  lock(&second);
  lock(&first);
  print(one + two);
  unlock(&first);
  unlock(&second);
  return 0;
}
