/*
 * Marks of sharing modes for a program in C with pthreads, which vanish for gcc and are read by tools/sharc-c:
 *
 *     #include "sharc_marks.h"
 *     static long SHARC_LOCKED(result_mutex) result;
 *     struct job SHARC_LOCKED(mutex) *SHARC_LOCKED(mutex) head;
 *
 * A mark stands where `const` may stand: after the base type for what is pointed to, after the star for the pointer.
 * The path in SHARC_LOCKED(path) is a mutex: a global, a member of the same struct, x->member or global.member.
 *
 * SCAST(type, x) takes what x points to, nulls x, and gives it the marks of `type`. SHARC_GIVE(x), as the argument of
 * pthread_create, hands what x points to over to the thread; gcc sees x alone.
 */
#ifndef SHARC_MARKS_H
#define SHARC_MARKS_H
#ifdef SHARC_FRONT
#define SHARC_PRIVATE __mode_private
#define SHARC_READONLY __mode_readonly
#define SHARC_RACY __mode_racy
#define SHARC_DYNAMIC __mode_dynamic
#define SHARC_LOCKED(path) __mode_locked(path)
#define SHARC_GIVE(x) __sharc_give(x)
#define SCAST(type, x) __sharc_scast((type) 0, x)
#else
#define SHARC_PRIVATE
#define SHARC_READONLY
#define SHARC_RACY
#define SHARC_DYNAMIC
#define SHARC_LOCKED(path)
#define SHARC_GIVE(x) (x)
#define SCAST(type, x) \
    (__extension__({ \
        __typeof__(x) *sharc_place = &(x); \
        type sharc_taken = *sharc_place; \
        *sharc_place = (void *) 0; \
        sharc_taken; \
    }))
#endif
#endif
