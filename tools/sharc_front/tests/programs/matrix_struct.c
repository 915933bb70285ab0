/* Multiplies matrices given as structs; each thread has a band of rows. */
#include <pthread.h>
#include <stdio.h>
#include <stdlib.h>

#define N 10

typedef struct {
    int rows, cols;
    int *data;
} matrix;

struct band {
    const matrix *a, *b;
    matrix *out;
    int from, to;
};

static matrix *matrix_new(int rows, int cols)
{
    matrix *m = malloc(sizeof(matrix));

    if (!m)
        return NULL;
    m->rows = rows;
    m->cols = cols;
    m->data = calloc((size_t) rows * cols, sizeof(int));
    if (m->data == NULL) {
        free(m);
        return NULL;
    }
    return m;
}

static int get(const matrix *m, int r, int c)
{
    return m->data[r * m->cols + c];
}

static void set(matrix *m, int r, int c, int v)
{
    m->data[r * m->cols + c] = v;
}

static void *multiply(void *p)
{
    struct band *b = p;

    for (int i = b->from; i < b->to; i++)
        for (int j = 0; j < b->b->cols; j++) {
            int s = 0;
            for (int k = 0; k < b->a->cols; k++)
                s += get(b->a, i, k) * get(b->b, k, j);
            set(b->out, i, j, s);
        }
    return NULL;
}

int main(int argc, char *argv[])
{
    int nthreads = 3;
    pthread_t *tids;
    struct band *bands;
    matrix *a, *b, *c;
    long trace = 0, total = 0;

    if (argc > 1)
        nthreads = atoi(argv[1]);
    a = matrix_new(N, N);
    b = matrix_new(N, N);
    c = matrix_new(N, N);
    if (!a || !b || !c) {
        perror("malloc");
        return 1;
    }
    for (int i = 0; i < N; i++)
        for (int j = 0; j < N; j++) {
            set(a, i, j, i + j);
            set(b, i, j, (i * j) % 7 - 3);
        }
    tids = malloc(nthreads * sizeof(*tids));
    bands = malloc(nthreads * sizeof(*bands));
    for (int t = 0; t < nthreads; t++) {
        bands[t].a = a;
        bands[t].b = b;
        bands[t].out = c;
        bands[t].from = t * N / nthreads;
        bands[t].to = (t + 1) * N / nthreads;
        pthread_create(&tids[t], NULL, multiply, &bands[t]);
    }
    for (int t = 0; t < nthreads; t++)
        pthread_join(tids[t], NULL);
    for (int i = 0; i < N; i++) {
        trace += get(c, i, i);
        for (int j = 0; j < N; j++)
            total += get(c, i, j);
    }
    printf("trace %ld total %ld\n", trace, total);
    free(tids);
    free(bands);
    return 0;
}
