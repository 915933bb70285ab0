#ifndef SHARC_FRONT_PTHREAD_H
#define SHARC_FRONT_PTHREAD_H
#include <stddef.h>
#include <sched.h>
#include <time.h>
#include <sharc_front.h>
#define pthread_mutex_lock(m) __sharc_do(lock, m)
#define pthread_mutex_unlock(m) __sharc_do(unlock, m)
/* the names of these three are what the front looks at */
typedef unsigned long __sharc_cond;
typedef unsigned long pthread_spinlock_t;
typedef int pthread_attr_t;
typedef int pthread_t;
typedef int pthread_key_t;
typedef int pthread_mutexattr_t;
typedef int pthread_condattr_t;
/* a condition and a mutex of its own, made at the first wait: it is held from before the unlock of the user's mutex */
static pthread_mutex_t __sharc_conds;
#define __CONDS __mode_locked(__sharc_conds)
typedef struct { __sharc_cond __mode_dynamic *__CONDS changed;
                 pthread_mutex_t __mode_racy *__CONDS own; } pthread_cond_t;
static inline int pthread_cond_wait(pthread_cond_t *c, pthread_mutex_t *m)
{
    __sharc_cond __mode_dynamic *changed;
    pthread_mutex_t *own;
    pthread_mutex_lock(&__sharc_conds);
    if (c->changed == NULL) {
        c->changed = malloc(sizeof(__sharc_cond));
        c->own = malloc(sizeof(pthread_mutex_t));
    }
    changed = c->changed;
    own = c->own;
    pthread_mutex_unlock(&__sharc_conds);
    pthread_mutex_lock(own);
    pthread_mutex_unlock(m);
    __sharc_do(wait, changed, own);
    pthread_mutex_unlock(own);
    pthread_mutex_lock(m);
    return 0;
}
#define __SIGNAL(name, call) static inline int name(pthread_cond_t *c) \
    { \
        __sharc_cond __mode_dynamic *changed; \
        pthread_mutex_t *own; \
        pthread_mutex_lock(&__sharc_conds); \
        changed = c->changed; \
        own = c->own; \
        pthread_mutex_unlock(&__sharc_conds); \
        if (changed != NULL) { \
            pthread_mutex_lock(own); \
            __sharc_do(call, changed); \
            pthread_mutex_unlock(own); \
        } \
        return 0; \
    }
__SIGNAL(pthread_cond_signal, signal)
__SIGNAL(pthread_cond_broadcast, broadcast)
#define __LOCKED __mode_locked(guard)
typedef struct { pthread_mutex_t guard; pthread_cond_t changed; int __LOCKED readers;
                 int __LOCKED writer; } pthread_rwlock_t;
typedef struct { pthread_mutex_t guard; pthread_cond_t changed; int __LOCKED needed; int __LOCKED waiting;
                 long __LOCKED round; } pthread_barrier_t;
typedef struct { pthread_mutex_t guard; int __LOCKED done; } pthread_once_t;
#define PTHREAD_MUTEX_INITIALIZER __sharc_init
#define PTHREAD_COND_INITIALIZER __sharc_init
#define PTHREAD_RWLOCK_INITIALIZER __sharc_init
#define PTHREAD_ONCE_INIT __sharc_init
#define PTHREAD_BARRIER_SERIAL_THREAD (-1)
#define PTHREAD_CREATE_JOINABLE 0
#define PTHREAD_CREATE_DETACHED 1
#define PTHREAD_SCOPE_SYSTEM 0
#define PTHREAD_PROCESS_PRIVATE 0
#define PTHREAD_CANCELED ((void *) -1)
#define pthread_mutex_init(m, attributes) __sharc_attributes(m, attributes)
#define pthread_mutex_destroy(m) __sharc_attributes(m, 0)
#define pthread_cond_init(c, attributes) __sharc_attributes(c, attributes)
#define pthread_cond_destroy(c) __sharc_attributes(c, 0)
#define pthread_spin_init(m, shared) __sharc_attributes(m, ((void) (shared), 0))
#define pthread_spin_destroy(m) __sharc_attributes(m, 0)
#define pthread_spin_lock(m) pthread_mutex_lock(m)
#define pthread_spin_unlock(m) pthread_mutex_unlock(m)
#define pthread_attr_init(a) __sharc_attributes(a, 0)
#define pthread_attr_destroy(a) __sharc_attributes(a, 0)
#define pthread_attr_setdetachstate(a, state) __sharc_attributes(a, ((void) (state), 0))
#define pthread_attr_setstacksize(a, size) __sharc_attributes(a, ((void) (size), 0))
#define pthread_attr_setscope(a, scope) __sharc_attributes(a, ((void) (scope), 0))
static inline int pthread_detach(pthread_t thread) { return 0; }
static inline int pthread_setconcurrency(int level) { return 0; }
#define pthread_rwlock_init(l, attributes) __sharc_attributes(l, attributes)
#define pthread_rwlock_destroy(l) __sharc_attributes(l, 0)
#define pthread_barrier_destroy(b) __sharc_attributes(b, 0)
static inline int pthread_rwlock_rdlock(pthread_rwlock_t *l)
{
    pthread_mutex_lock(&l->guard);
    while (l->writer)
        pthread_cond_wait(&l->changed, &l->guard);
    l->readers++;
    pthread_mutex_unlock(&l->guard);
    return 0;
}
static inline int pthread_rwlock_wrlock(pthread_rwlock_t *l)
{
    pthread_mutex_lock(&l->guard);
    while (l->writer || l->readers)
        pthread_cond_wait(&l->changed, &l->guard);
    l->writer = 1;
    pthread_mutex_unlock(&l->guard);
    return 0;
}
static inline int pthread_rwlock_unlock(pthread_rwlock_t *l)
{
    pthread_mutex_lock(&l->guard);
    if (l->writer)
        l->writer = 0;
    else
        l->readers--;
    pthread_cond_broadcast(&l->changed);
    pthread_mutex_unlock(&l->guard);
    return 0;
}
static inline int pthread_barrier_init(pthread_barrier_t *b, void *none, unsigned n)
{
    pthread_mutex_lock(&b->guard);
    b->needed = n;
    b->waiting = 0;
    pthread_mutex_unlock(&b->guard);
    return 0;
}
static inline int pthread_barrier_wait(pthread_barrier_t *b)
{
    int last = 0;
    pthread_mutex_lock(&b->guard);
    b->waiting++;
    if (b->waiting == b->needed) {
        last = PTHREAD_BARRIER_SERIAL_THREAD;
        b->waiting = 0;
        b->round++;
        pthread_cond_broadcast(&b->changed);
    } else {
        long round = b->round;
        while (b->round == round)
            pthread_cond_wait(&b->changed, &b->guard);
    }
    pthread_mutex_unlock(&b->guard);
    return last;
}
static inline int pthread_once(pthread_once_t *o, void (*f)(void))
{
    pthread_mutex_lock(&o->guard);
    if (!o->done) {
        o->done = 1;
        f();
    }
    pthread_mutex_unlock(&o->guard);
    return 0;
}
#endif
