/* A queue of numbers between two threads: with a lock, or (-DATOMIC) with atomics, which no library sees. */
#ifndef QUEUE_H
#define QUEUE_H

#include <pthread.h>
#include <sched.h>
#include <stdatomic.h>

enum { QUEUE_ROOM = 64 };

struct queue {
    pthread_mutex_t lock;
    pthread_cond_t filled;
    int items[QUEUE_ROOM], from;
    _Atomic int to;
};
#define QUEUE { .lock = PTHREAD_MUTEX_INITIALIZER, .filled = PTHREAD_COND_INITIALIZER }

static inline void put(struct queue *queue, int item)
{
#ifdef ATOMIC
    queue->items[queue->to % QUEUE_ROOM] = item;
    queue->to++;
#else
    pthread_mutex_lock(&queue->lock);
    queue->items[queue->to++ % QUEUE_ROOM] = item;
    pthread_cond_signal(&queue->filled);
    pthread_mutex_unlock(&queue->lock);
#endif
}

static inline int get(struct queue *queue)
{
    int item;

#ifdef ATOMIC
    while (queue->to == queue->from)
        sched_yield();
    item = queue->items[queue->from++ % QUEUE_ROOM];
#else
    pthread_mutex_lock(&queue->lock);
    while (queue->to == queue->from)
        pthread_cond_wait(&queue->filled, &queue->lock);
    item = queue->items[queue->from++ % QUEUE_ROOM];
    pthread_mutex_unlock(&queue->lock);
#endif
    return item;
}

static inline void wait_for(int file)
{
    EXPECT(ready(file, POLLIN, SOON), POLLIN);
}

static inline void start(pthread_t *thread, void *(*run)(void *), void *given)
{
    EXPECT(pthread_create(thread, NULL, run, given), 0);
}

#endif
