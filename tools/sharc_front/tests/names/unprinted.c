#include <pthread.h>
#include <stdio.h>
#include "sharc_marks.h"

static pthread_mutex_t m = PTHREAD_MUTEX_INITIALIZER;
static int SHARC_LOCKED(m) n;
static const char *names[2] = { "a", "b" };

static void *shows(void *arg)
{
    printf("%s\n", names[n]);
    return arg;
}

int main(void)
{
    pthread_t t;

    pthread_create(&t, NULL, shows, NULL);
    fprintf(stderr, "%d of %d\n", 1, n);
    pthread_join(t, NULL);
    return 0;
}
