#include <pthread.h>

struct queue {
	pthread_mutex_t mutex;
	_Bool full;
};

struct queue *queue_of(_Bool first);

/* wrong: a full queue is locked twice; no caller knows which queue it is */
void queue_empty(_Bool first)
{
	struct queue *q = queue_of(first);

	pthread_mutex_lock(&q->mutex);
	if (q->full)
		pthread_mutex_lock(&q->mutex);
	q->full = 0;
	pthread_mutex_unlock(&q->mutex);
}

/* right */
void queue_fill(_Bool first)
{
	struct queue *q = queue_of(first);

	pthread_mutex_lock(&q->mutex);
	q->full = 1;
	pthread_mutex_unlock(&q->mutex);
}
