#include <pthread.h>
#include <stdio.h>
#include "sharc_marks.h"

struct config { int SHARC_READONLY private; };

static pthread_mutex_t lock = PTHREAD_MUTEX_INITIALIZER;
static int SHARC_LOCKED(lock) wait;
static struct config *the_config(struct config *c) { c->private = 2; return c; }

int main(void)
{
    struct config own = { 1 };
    int signal = 0;
    pthread_mutex_lock(&lock);
    wait += signal;
    printf("%d %d\n", wait, the_config(&own)->private);
    pthread_mutex_unlock(&lock);
    return 0;
}
