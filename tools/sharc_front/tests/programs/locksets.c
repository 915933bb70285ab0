#include <pthread.h>
#include <stdio.h>
#include <errno.h>
#include <string.h>
static pthread_mutex_t a = PTHREAD_MUTEX_INITIALIZER, b = PTHREAD_MUTEX_INITIALIZER; static int x, y; static volatile int done = 0;
static void with(pthread_mutex_t *m, int *p, int by) { pthread_mutex_lock(m); *p += by; pthread_mutex_unlock(m); }
static void *f(void *arg) { const char *who = arg; int k = strlen(who); for (int i = 0; i < 10; i++) { with(&a, &x, k); with(&b, &y, -i); } if (strcmp(who, "second") == 0) done = 1; return (void *) who; }
static void check(int rc, const char *what) { if (rc) { fprintf(stderr, "%s: %s\n", what, strerror(rc)); _Exit(1); } }
int main(void) { pthread_t s, t; void *r; char *names[] = { "first", "second" }; check(pthread_create(&s, NULL, f, names[0]), "create"); check(pthread_create(&t, NULL, f, names[1]), "create"); check(pthread_join(s, &r), "join"); printf("%d\n", ((char *) r)[0]); pthread_join(t, NULL); printf("%d %d %d\n", x, y, done); return 0; }
