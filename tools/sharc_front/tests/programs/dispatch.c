/* A table of named operations; a thread for each line of work looks its operation up by name. */
#include <pthread.h>
#include <stdio.h>
#include <string.h>
#include <stdlib.h>

typedef int (*op_fn)(int, int);

static int op_add(int a, int b) { return a + b; }
static int op_sub(int a, int b) { return a - b; }
static int op_gcd(int a, int b) { return b == 0 ? a : op_gcd(b, a % b); }
static int op_pow(int a, int b)
{
    int r = 1;
    while (b-- > 0)
        r *= a;
    return r;
}

static const struct op {
    const char *name;
    op_fn fn;
} ops[] = {
    { "add", op_add },
    { "sub", op_sub },
    { "gcd", op_gcd },
    { "pow", op_pow },
    { NULL, NULL }
};

struct work {
    const char *op;
    int a, b;
    int result;
    int error;
};

static op_fn find(const char *name)
{
    for (const struct op *o = ops; o->name != NULL; o++)
        if (strcmp(o->name, name) == 0)
            return o->fn;
    return NULL;
}

static void *work_main(void *arg)
{
    struct work *w = arg;
    op_fn f = find(w->op);

    if (!f) {
        w->error = 1;
        return NULL;
    }
    w->result = f(w->a, w->b);
    return NULL;
}

int main(void)
{
    struct work works[] = {
        { "add", 3, 4, 0, 0 }, { "gcd", 84, 36, 0, 0 }, { "pow", 3, 5, 0, 0 },
        { "nope", 1, 1, 0, 0 }, { .op = "sub", .a = 1, .b = 10 },
    };
    enum { NWORKS = sizeof works / sizeof works[0] };
    pthread_t t[NWORKS];
    int errors = 0;

    for (int i = 0; i < NWORKS; i++)
        pthread_create(&t[i], NULL, work_main, &works[i]);
    for (int i = 0; i < NWORKS; i++) {
        pthread_join(t[i], NULL);
        if (works[i].error)
            errors++;
        else
            printf("%s(%d, %d) = %d\n", works[i].op, works[i].a, works[i].b, works[i].result);
    }
    printf("%d errors\n", errors);
    return 0;
}
