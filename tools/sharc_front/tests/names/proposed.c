#include <pthread.h>
#include <stdlib.h>

struct queue { pthread_mutex_t mutex; int length; struct item *first; };
struct item { struct item *next; };
static struct queue todo;

static void add(struct queue *q, struct item *i)
{
    pthread_mutex_lock(&q->mutex);
    i->next = q->first;
    q->first = i;
    q->length++;
    pthread_mutex_unlock(&q->mutex);
}

static void *fill(void *arg)
{
    for (int i = 0; i < 3; i++)
        add(&todo, calloc(1, sizeof(struct item)));
    if (todo.length > 9)
        todo.first = NULL;
    return arg;
}

int main(void)
{
    pthread_t t;
    pthread_create(&t, NULL, fill, NULL);
    pthread_join(t, NULL);
    return todo.length != 3;
}
