/* Two orders of two mutexes that never meet: the second thread takes its locks only once it has seen that the first
   has unlocked, by a flag. That no run is stuck is not shown by the locks. */
mutex first;
mutex second;
int racy done;
long locked(first) one;
long locked(second) two;

void forward(int amount) {
  lock(&first);
  lock(&second);
  one = one - amount;
  two = two + amount;
  unlock(&second);
  unlock(&first);
  done = 1;
}

void backward(int amount) {
  while (done == 0) ;
  lock(&second);
  lock(&first);
  one = one + amount;
  two = two - amount;
  unlock(&first);
  unlock(&second);
}

int main(void) {
  int a = spawn(forward, 3);
  int b = spawn(backward, 1);
  join(a);
  join(b);
  return 0;
}
