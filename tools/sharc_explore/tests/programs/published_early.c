/* race
   A message is put into the box before it is complete; the receiver mostly comes when the sender has ended. */
struct message { int head; int more; int body; };
struct box { mutex m; struct message dynamic * locked(m) message; };
void sender(struct box * b) {
  struct message dynamic * message = malloc(sizeof(struct message));
  message->head = 1;
  lock(&b->m);
  b->message = message;
  unlock(&b->m);
  message->body = 2;
}
void receiver(struct box * b) {
  for (int i = 0; i < 90; i = i + 1) ;
  lock(&b->m);
  struct message * got = b->message;
  unlock(&b->m);
  if (got != NULL) print(got->body);
}
int main(void) {
  struct box * b = malloc(sizeof(struct box));
  int s = spawn(sender, b);
  int r = spawn(receiver, b);
  join(s);
  join(r);
  return 0;
}
