#ifndef SHARC_FRONT_STDATOMIC_H
#define SHARC_FRONT_STDATOMIC_H
#include <stdint.h>
#include <sharc_front.h>
typedef _Atomic _Bool atomic_bool;
typedef _Atomic char atomic_char;
typedef _Atomic int atomic_int;
typedef _Atomic unsigned int atomic_uint;
typedef _Atomic long atomic_long;
typedef _Atomic unsigned long atomic_ulong;
typedef _Atomic long atomic_llong;
typedef _Atomic unsigned long atomic_ullong;
typedef _Atomic unsigned long atomic_size_t;
typedef _Atomic long atomic_intptr_t;
typedef _Atomic unsigned long atomic_uintptr_t;
#define ATOMIC_VAR_INIT(value) value
#define memory_order_relaxed 0
#define memory_order_consume 1
#define memory_order_acquire 2
#define memory_order_release 3
#define memory_order_acq_rel 4
#define memory_order_seq_cst 5
#define atomic_thread_fence(order) ((void)(order))
#define atomic_load_explicit(p, order) atomic_load(p)
#define atomic_store_explicit(p, v, order) atomic_store(p, v)
#define atomic_exchange_explicit(p, v, order) atomic_exchange(p, v)
#define atomic_fetch_add_explicit(p, v, order) atomic_fetch_add(p, v)
#define atomic_fetch_sub_explicit(p, v, order) atomic_fetch_sub(p, v)
#define atomic_fetch_or_explicit(p, v, order) atomic_fetch_or(p, v)
#define atomic_fetch_and_explicit(p, v, order) atomic_fetch_and(p, v)
#define atomic_fetch_xor_explicit(p, v, order) atomic_fetch_xor(p, v)
#define atomic_compare_exchange_strong(p, e, v) atomic_compare_exchange_weak(p, e, v)
#define atomic_compare_exchange_weak_explicit(p, e, v, order, other) atomic_compare_exchange_weak(p, e, v)
#define atomic_compare_exchange_strong_explicit(p, e, v, order, other) atomic_compare_exchange_weak(p, e, v)
#define atomic_init(p, v) atomic_store(p, v)
static inline __sharc_value atomic_load(__sharc_value *p)
{
    __sharc_value now = *p;
    return now;
}
static inline int atomic_store(__sharc_value *p, long v)
{
    __sharc_lock_atomics();
    *p = v;
    __sharc_unlock_atomics();
    return 0;
}
static inline __sharc_value atomic_exchange(__sharc_value *p, long v)
{
    __sharc_value old;
    __sharc_lock_atomics();
    old = *p;
    *p = v;
    __sharc_unlock_atomics();
    return old;
}
static inline _Bool atomic_compare_exchange_weak(__sharc_value *p, __sharc_value *expected, long v)
{
    _Bool done = 0;
    __sharc_lock_atomics();
    if (*p == *expected) {
        *p = v;
        done = 1;
    } else
        *expected = *p;
    __sharc_unlock_atomics();
    return done;
}
#endif
