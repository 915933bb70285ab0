/* A parser thread turns text into tokens; an evaluator thread computes with a stack. */
#include <pthread.h>
#include <stdio.h>
#include <stdlib.h>
#include <string.h>

#define RING 4
#define STACK 16

enum kind { T_NUM, T_ADD, T_SUB, T_MUL, T_DUP, T_SWAP, T_END };

struct token {
    enum kind kind;
    long num;
};

static struct {
    struct token ring[RING];
    int in, out, count;
    pthread_mutex_t lock;
    pthread_cond_t changed;
} q = { .lock = PTHREAD_MUTEX_INITIALIZER, .changed = PTHREAD_COND_INITIALIZER };

static void put(struct token t)
{
    pthread_mutex_lock(&q.lock);
    while (q.count == RING)
        pthread_cond_wait(&q.changed, &q.lock);
    q.ring[q.in] = t;
    q.in = (q.in + 1) % RING;
    q.count++;
    pthread_cond_broadcast(&q.changed);
    pthread_mutex_unlock(&q.lock);
}

static struct token get(void)
{
    struct token t;

    pthread_mutex_lock(&q.lock);
    while (q.count == 0)
        pthread_cond_wait(&q.changed, &q.lock);
    t = q.ring[q.out];
    q.out = (q.out + 1) % RING;
    q.count--;
    pthread_cond_broadcast(&q.changed);
    pthread_mutex_unlock(&q.lock);
    return t;
}

static void *parser(void *arg)
{
    const char *s = arg;
    struct token t;

    while (*s) {
        switch (*s) {
        case '+': t.kind = T_ADD; break;
        case '-': t.kind = T_SUB; break;
        case '*': t.kind = T_MUL; break;
        case 'd': t.kind = T_DUP; break;
        case 's': t.kind = T_SWAP; break;
        case ' ':
            s++;
            continue;
        default:
            t.kind = T_NUM;
            t.num = 0;
            while (*s >= '0' && *s <= '9')
                t.num = t.num * 10 + (*s++ - '0');
            put(t);
            continue;
        }
        put(t);
        s++;
    }
    t.kind = T_END;
    put(t);
    return NULL;
}

static void *evaluator(void *arg)
{
    long stack[STACK];
    int sp = 0;
    long *result = arg;

    for (;;) {
        struct token t = get();
        long x, y;

        if (t.kind == T_END)
            break;
        switch (t.kind) {
        case T_NUM:
            stack[sp++] = t.num;
            break;
        case T_DUP:
            stack[sp] = stack[sp - 1];
            sp++;
            break;
        default:
            y = stack[--sp];
            x = stack[--sp];
            if (t.kind == T_SWAP) {
                stack[sp++] = y;
                stack[sp++] = x;
            } else
                stack[sp++] = t.kind == T_ADD ? x + y : t.kind == T_SUB ? x - y : x * y;
        }
        printf("%d deep, top %ld\n", sp, stack[sp - 1]);
    }
    *result = stack[0];
    return NULL;
}

int main(void)
{
    pthread_t a, b;
    long result = -1;

    pthread_create(&a, NULL, parser, "12 3 + d * 25 s - 7 *");
    pthread_create(&b, NULL, evaluator, &result);
    pthread_join(a, NULL);
    pthread_join(b, NULL);
    printf("result %ld\n", result);
    return 0;
}
