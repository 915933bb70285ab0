/* The loops of the machine's bench in C, so many times round: a count in a local, a global that is read and written, and eight threads that each count up a
   global under a mutex. The time of one round in picoseconds, of all eight threads together for the last. */
#include <pthread.h>
#include <stdio.h>
#include <stdlib.h>
#include <string.h>
#include <time.h>

static pthread_mutex_t mutex = PTHREAD_MUTEX_INITIALIZER;
static long rounds;
static int value;
static long sum;

static void count(void) {
    long left = rounds;
    long one = 1;
    for (;;) {
        left = left - one;
        if (left == 0) break;
    }
}

static void read_and_write(void) {
    long left = rounds;
    long one = 1;
    int seen = 0;
    for (;;) {
        value = (int)left;
        seen = value;
        left = left - one;
        if (left == 0) break;
    }
    if (seen == 0) exit(1);
}

static void *work(void *unused) {
    for (long i = 0; i < rounds; i++) {
        pthread_mutex_lock(&mutex);
        sum = sum + 1;
        pthread_mutex_unlock(&mutex);
    }
    return unused;
}

static void locked(void) {
    pthread_t threads[8];
    for (int i = 0; i < 8; i++) pthread_create(&threads[i], NULL, work, NULL);
    for (int i = 0; i < 8; i++) pthread_join(threads[i], NULL);
    if (sum != 8 * rounds) exit(1);
}

int main(int argc, char **argv) {
    struct timespec a, b;
    if (argc != 3) return 2;
    rounds = atol(argv[2]);
    clock_gettime(CLOCK_MONOTONIC, &a);
    if (strcmp(argv[1], "count") == 0) count();
    else if (strcmp(argv[1], "global") == 0) read_and_write();
    else locked();
    clock_gettime(CLOCK_MONOTONIC, &b);
    printf("%s: %.0f ps a round\n", argv[1], ((b.tv_sec - a.tv_sec) * 1e9 + (b.tv_nsec - a.tv_nsec)) * 1000.0 / rounds);
    return 0;
}
