/* A state machine with a switch that falls through, driven by events of two threads. */
#include <pthread.h>
#include <stdio.h>
#include <stdbool.h>

typedef enum { IDLE, MOVING_UP, MOVING_DOWN, DOORS_OPEN } state_t;
typedef enum { EV_CALL, EV_ARRIVE, EV_TIMEOUT, EV_QUIT } event_t;

#define MAX_EVENTS 32

struct lift {
    state_t state;
    short floor;
    short target;
    unsigned char moves;
    unsigned short opened;
};

static struct lift lift = { IDLE, 0, 0, 0, 0 };
static event_t events[MAX_EVENTS];
static short targets[MAX_EVENTS];
static int n_events, n_done;
static pthread_mutex_t m = PTHREAD_MUTEX_INITIALIZER;
static pthread_cond_t c = PTHREAD_COND_INITIALIZER;

static void post(event_t e, short target)
{
    pthread_mutex_lock(&m);
    events[n_events % MAX_EVENTS] = e;
    targets[n_events % MAX_EVENTS] = target;
    ++n_events;
    pthread_cond_signal(&c);
    pthread_mutex_unlock(&m);
}

static bool handle(event_t e, short target)
{
    switch (e) {
    case EV_CALL:
        lift.target = target;
        if (target == lift.floor) {
            lift.state = DOORS_OPEN;
            break;
        }
        lift.state = target > lift.floor ? MOVING_UP : MOVING_DOWN;
        /* fall through */
    case EV_ARRIVE:
        while (lift.floor != lift.target) {
            lift.floor += lift.state == MOVING_UP ? 1 : -1;
            lift.moves += 10;
        }
        lift.state = DOORS_OPEN;
        lift.opened++;
        break;
    case EV_TIMEOUT:
        lift.state = IDLE;
        break;
    case EV_QUIT:
    default:
        return false;
    }
    return true;
}

static void *control(void *unused)
{
    bool more = true;

    while (more) {
        pthread_mutex_lock(&m);
        while (n_done == n_events)
            pthread_cond_wait(&c, &m);
        event_t e = events[n_done % MAX_EVENTS];
        short t = targets[n_done % MAX_EVENTS];
        n_done++;
        more = handle(e, t);
        pthread_mutex_unlock(&m);
    }
    return unused;
}

int main(void)
{
    pthread_t th;

    pthread_create(&th, NULL, control, NULL);
    for (short f = 0; f < 9; f += 2) {
        post(EV_CALL, f * 3 % 7);
        post(EV_TIMEOUT, 0);
    }
    post(EV_CALL, -2);
    post(EV_QUIT, 0);
    pthread_join(th, NULL);
    printf("floor %d moves %u opened %hu state %d\n", lift.floor, lift.moves, lift.opened, lift.state);
    printf("%d\n", lift.state - MOVING_DOWN > 0);
    return 0;
}
