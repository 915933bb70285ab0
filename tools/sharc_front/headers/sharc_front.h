/* What the other headers are made of.
 *
 * The body of a C function of these headers is written in place of a call; in it __sharc_value is the type that the
 * first argument points to. It returns at its end alone. An argument for a parameter `none` has to be NULL.
 * __sharc_do(f, x ..) is the call f(x ..) of the language; __sharc_stop(what) stops the thread.
 */
#ifndef SHARC_FRONT_H
#define SHARC_FRONT_H
typedef long __sharc_value;
typedef unsigned long pthread_mutex_t;
static pthread_mutex_t __sharc_atomics;
static inline int __sharc_attributes(void *object, void *none) { return 0; }
#define __sharc_lock_atomics() __sharc_do(lock, &__sharc_atomics)
#define __sharc_unlock_atomics() __sharc_do(unlock, &__sharc_atomics)
/* words that change nothing that the front looks at */
#define __extension__
#define restrict
#define __restrict
#define __restrict__
#define _Noreturn
#define __inline inline
#define __inline__ inline
#define __signed__ signed
#define __const const
#define __const__ const
#define volatile
#define __volatile
#define __volatile__
#define __func__ ""
#define __FUNCTION__ ""
#define _Exit(code) exit(code)
/* and what is refused */
#define _Thread_local __sharc_refuse("variable of each thread")
#define __thread __sharc_refuse("variable of each thread")
#define _Alignas __sharc_refuse("_Alignas")
#define __builtin_va_arg __sharc_refuse("variable arguments")
#define asm __sharc_refuse("inline assembler")
#define __asm__ __sharc_refuse("inline assembler")
#define __attribute __attribute__
#define __FETCH(name, operator) \
    static inline __sharc_value name(__sharc_value *p, long v) \
    { \
        __sharc_value old; \
        __sharc_lock_atomics(); \
        old = *p; \
        *p = (unsigned long) old operator (unsigned long) v; \
        __sharc_unlock_atomics(); \
        return old; \
    }
__FETCH(atomic_fetch_add, +)
__FETCH(atomic_fetch_sub, -)
__FETCH(atomic_fetch_or, |)
__FETCH(atomic_fetch_and, &)
__FETCH(atomic_fetch_xor, ^)
#define __sync_fetch_and_add(p, v) atomic_fetch_add(p, v)
#define __sync_fetch_and_sub(p, v) atomic_fetch_sub(p, v)
#define __sync_fetch_and_or(p, v) atomic_fetch_or(p, v)
#define __sync_fetch_and_and(p, v) atomic_fetch_and(p, v)
#define __sync_fetch_and_xor(p, v) atomic_fetch_xor(p, v)
#define __sync_synchronize() ((void) 0)
static inline __sharc_value __sync_add_and_fetch(__sharc_value *p, long v)
{
    __sharc_value now;
    __sharc_lock_atomics();
    *p = (unsigned long) *p + (unsigned long) v;
    now = *p;
    __sharc_unlock_atomics();
    return now;
}
static inline __sharc_value __sync_sub_and_fetch(__sharc_value *p, long v)
{
    __sharc_value now;
    __sharc_lock_atomics();
    *p = (unsigned long) *p - (unsigned long) v;
    now = *p;
    __sharc_unlock_atomics();
    return now;
}
#endif
