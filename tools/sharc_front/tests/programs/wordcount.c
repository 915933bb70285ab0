/* Counts words of a text with several workers; each takes a chunk of lines. */
#include <pthread.h>
#include <stdio.h>
#include <stdlib.h>
#include <string.h>
#include <ctype.h>

#define NLINES 8
#define NWORKERS 3
#define NBUCKETS 16

static const char *lines[NLINES] = {
    "the quick brown fox jumps over the lazy dog",
    "a stitch in time saves nine",
    "all that glitters is not gold",
    "the early bird catches the worm",
    "a watched pot never boils",
    "too many cooks spoil the broth",
    "",
    "the end"
};

struct entry {
    unsigned long hash;
    int count;
};

static struct entry table[NBUCKETS];
static pthread_mutex_t table_lock = PTHREAD_MUTEX_INITIALIZER;
static int next_line;
static pthread_mutex_t line_lock = PTHREAD_MUTEX_INITIALIZER;

static unsigned long hash_word(const char *s, int len)
{
    unsigned long h = 5381;
    int i;

    for (i = 0; i < len; i++)
        h = h * 33 + (unsigned char) s[i];
    return h;
}

static void add_word(const char *s, int len)
{
    unsigned long h = hash_word(s, len);

    pthread_mutex_lock(&table_lock);
    table[h % NBUCKETS].hash ^= h;
    table[h % NBUCKETS].count++;
    pthread_mutex_unlock(&table_lock);
}

static int count_line(const char *s)
{
    int n = 0;
    const char *p = s;

    while (*p != '\0') {
        while (isspace((unsigned char) *p))
            p++;
        const char *start = p;
        while (*p && !isspace((unsigned char) *p))
            p++;
        if (p > start) {
            add_word(start, (int) (p - start));
            n++;
        }
    }
    return n;
}

static void *worker(void *arg)
{
    long *total = arg;

    for (;;) {
        pthread_mutex_lock(&line_lock);
        int i = next_line < NLINES ? next_line++ : -1;
        pthread_mutex_unlock(&line_lock);
        if (i < 0)
            break;
        *total += count_line(lines[i]);
    }
    return NULL;
}

int main(void)
{
    pthread_t tid[NWORKERS];
    long totals[NWORKERS] = { 0 };
    long sum = 0;
    unsigned int mix = 0;

    for (int i = 0; i < NWORKERS; i++)
        if (pthread_create(&tid[i], NULL, worker, &totals[i])) {
            fprintf(stderr, "cannot create thread %d\n", i);
            return EXIT_FAILURE;
        }
    for (int i = 0; i < NWORKERS; i++) {
        pthread_join(tid[i], NULL);
        sum += totals[i];
    }
    for (int i = 0; i < NBUCKETS; i++) {
        printf("%2d: %d\n", i, table[i].count);
        mix = mix * 31 + (unsigned int) table[i].hash;
    }
    printf("%ld words, mix %u\n", sum, mix);
    return 0;
}
