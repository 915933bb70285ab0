/* Two threads take turns by two semaphores. */
#include <pthread.h>
#include <semaphore.h>
#include <stdio.h>

#define TURNS 8

static sem_t ping, pong;
static int ball;
static int log_[TURNS * 2];

static void *left(void *arg)
{
    for (int i = 0; i < TURNS; i++) {
        sem_wait(&ping);
        log_[ball] = ball * 10 + 1;
        ball++;
        sem_post(&pong);
    }
    return arg;
}

static void *right(void *arg)
{
    for (int i = 0; i < TURNS; i++) {
        sem_wait(&pong);
        log_[ball] = ball * 10 + 2;
        ball++;
        sem_post(&ping);
    }
    return arg;
}

int main(void)
{
    pthread_t l, r;

    sem_init(&ping, 0, 1);
    sem_init(&pong, 0, 0);
    pthread_create(&l, NULL, left, NULL);
    pthread_create(&r, NULL, right, NULL);
    pthread_join(l, NULL);
    pthread_join(r, NULL);
    for (int i = 0; i < TURNS * 2; i++)
        printf("%d\n", log_[i]);
    sem_destroy(&ping);
    sem_destroy(&pong);
    return 0;
}
