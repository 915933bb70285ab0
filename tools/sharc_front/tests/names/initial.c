#include <pthread.h>
#include <stdlib.h>
#include "sharc_marks.h"

struct item { struct item *next; };

static pthread_mutex_t m = PTHREAD_MUTEX_INITIALIZER;
static struct item *SHARC_LOCKED(m) head = NULL;
static struct { pthread_mutex_t lock; struct item *SHARC_LOCKED(lock) first; int SHARC_LOCKED(lock) length; } list =
    { PTHREAD_MUTEX_INITIALIZER, 0, 0 };

int main(void)
{
    int empty;

    pthread_mutex_lock(&m);
    pthread_mutex_lock(&list.lock);
    empty = head == NULL && list.first == NULL && list.length == 0;
    pthread_mutex_unlock(&list.lock);
    pthread_mutex_unlock(&m);
    return empty ? 0 : 1;
}
