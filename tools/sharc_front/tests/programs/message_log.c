/* Threads format messages into a shared buffer of fixed size; the oldest are overwritten. */
#include <pthread.h>
#include <stdio.h>
#include <string.h>

#define MSGS 8
#define LEN 32
#define WRITERS 3
#define EACH 5

static char messages[MSGS][LEN];
static int written;
static size_t bytes;
static pthread_mutex_t lock = PTHREAD_MUTEX_INITIALIZER;

static void log_message(const char *who, int n)
{
    char buf[LEN];

    snprintf(buf, sizeof(buf), "%s-%03d", who, n);
    pthread_mutex_lock(&lock);
    strncpy(messages[written % MSGS], buf, LEN - 1);
    messages[written % MSGS][LEN - 1] = '\0';
    bytes += strlen(buf);
    written++;
    pthread_mutex_unlock(&lock);
}

static const char *names[WRITERS] = { "alpha", "be", "gamma!" };

static void *writer(void *arg)
{
    int id = *(int *) arg;

    for (int i = 0; i < EACH; i++)
        log_message(names[id], i * 7);
    return NULL;
}

int main(void)
{
    pthread_t t[WRITERS];
    int ids[WRITERS];
    int letters = 0;

    for (int i = 0; i < WRITERS; i++) {
        ids[i] = i;
        pthread_create(&t[i], NULL, writer, &ids[i]);
    }
    for (int i = 0; i < WRITERS; i++)
        pthread_join(t[i], NULL);
    for (int i = 0; i < MSGS; i++) {
        if (strcmp(messages[i], "") == 0)
            continue;
        letters += messages[i][0] != 0;
    }
    printf("%d messages, %zu bytes, %d kept\n", written, bytes, letters);
    return 0;
}
