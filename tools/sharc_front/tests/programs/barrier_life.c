/* Game of life on a small grid; the threads meet at a barrier made of a condition variable. */
#include <pthread.h>
#include <stdio.h>
#include <string.h>

#define ROWS 12
#define COLS 16
#define THREADS 4
#define STEPS 10

struct barrier {
    pthread_mutex_t lock;
    pthread_cond_t cond;
    int count;
    int total;
    unsigned phase;
};

static char grid[2][ROWS][COLS];
static struct barrier bar;

static void barrier_init(struct barrier *b, int total)
{
    pthread_mutex_init(&b->lock, NULL);
    pthread_cond_init(&b->cond, NULL);
    b->count = 0;
    b->total = total;
    b->phase = 0;
}

static void barrier_wait(struct barrier *b)
{
    pthread_mutex_lock(&b->lock);
    unsigned phase = b->phase;
    if (++b->count == b->total) {
        b->count = 0;
        b->phase++;
        pthread_cond_broadcast(&b->cond);
    } else {
        while (phase == b->phase)
            pthread_cond_wait(&b->cond, &b->lock);
    }
    pthread_mutex_unlock(&b->lock);
}

static int neighbours(int from, int r, int c)
{
    int n = 0;

    for (int dr = -1; dr <= 1; dr++)
        for (int dc = -1; dc <= 1; dc++) {
            if (dr == 0 && dc == 0)
                continue;
            n += grid[from][(r + dr + ROWS) % ROWS][(c + dc + COLS) % COLS];
        }
    return n;
}

static void *run(void *arg)
{
    int id = (int) (long) arg;
    int first = id * ROWS / THREADS, last = (id + 1) * ROWS / THREADS;

    for (int step = 0; step < STEPS; step++) {
        int from = step & 1, to = from ^ 1;
        for (int r = first; r < last; r++)
            for (int c = 0; c < COLS; c++) {
                int n = neighbours(from, r, c);
                grid[to][r][c] = n == 3 || (n == 2 && grid[from][r][c]);
            }
        barrier_wait(&bar);
    }
    return NULL;
}

int main(void)
{
    pthread_t t[THREADS];
    static const int glider[5][2] = { { 0, 1 }, { 1, 2 }, { 2, 0 }, { 2, 1 }, { 2, 2 } };
    int alive = 0, weight = 0;

    memset(grid, 0, sizeof(grid));
    for (size_t i = 0; i < sizeof(glider) / sizeof(glider[0]); i++)
        grid[0][glider[i][0]][glider[i][1]] = 1;
    barrier_init(&bar, THREADS);
    for (long i = 0; i < THREADS; i++)
        pthread_create(&t[i], NULL, run, (void *) i);
    for (int i = 0; i < THREADS; i++)
        pthread_join(t[i], NULL);
    for (int r = 0; r < ROWS; r++)
        for (int c = 0; c < COLS; c++)
            if (grid[STEPS & 1][r][c]) {
                alive++;
                weight += r * COLS + c;
            }
    printf("alive %d weight %d\n", alive, weight);
    return 0;
}
