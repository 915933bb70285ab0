#include <pthread.h>
#include <stdio.h>
#include <stdlib.h>

static void *work(void *unused)
{
    long *all = malloc(9000 * sizeof *all);

    (void)unused;
    all[8999] = 5;
    printf("%ld\n", all[8999]);
    free(all);
    return NULL;
}

int main(void)
{
    pthread_t thread;

    pthread_create(&thread, NULL, work, NULL);
    pthread_join(thread, NULL);
    return 0;
}
