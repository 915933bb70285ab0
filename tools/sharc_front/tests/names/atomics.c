#include <pthread.h>
#include <stdatomic.h>

static pthread_mutex_t m = PTHREAD_MUTEX_INITIALIZER;
static atomic_uint tickets;
static int served;

static void *serve(void *arg)
{
    pthread_mutex_lock(&m);
    tickets++;
    atomic_fetch_add(&tickets, 2);
    served++;
    pthread_mutex_unlock(&m);
    return arg;
}

int main(void)
{
    pthread_t t;

    pthread_create(&t, NULL, serve, NULL);
    pthread_join(t, NULL);
    return served + tickets != 4;
}
