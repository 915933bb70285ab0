#ifndef SHARC_FRONT_SEMAPHORE_H
#define SHARC_FRONT_SEMAPHORE_H
#include <pthread.h>
typedef struct { pthread_mutex_t guard; pthread_cond_t changed; int __LOCKED count; } sem_t;
#define sem_destroy(s) __sharc_attributes(s, 0)
static inline int sem_init(sem_t *s, int shared, unsigned n)
{
    pthread_mutex_lock(&s->guard);
    s->count = n;
    pthread_mutex_unlock(&s->guard);
    return 0;
}
static inline int sem_wait(sem_t *s)
{
    pthread_mutex_lock(&s->guard);
    while (s->count == 0)
        pthread_cond_wait(&s->changed, &s->guard);
    s->count--;
    pthread_mutex_unlock(&s->guard);
    return 0;
}
static inline int sem_post(sem_t *s)
{
    pthread_mutex_lock(&s->guard);
    s->count++;
    pthread_cond_broadcast(&s->changed);
    pthread_mutex_unlock(&s->guard);
    return 0;
}
#endif
