#include <pthread.h>

struct queue {
	pthread_mutex_t mutex;
	_Bool full;
};

/* right: the result says whether the mutex is held */
_Bool queue_try(struct queue *q)
{
	return pthread_mutex_trylock(&q->mutex) == 0;
}

/* wrong: no caller can know */
void queue_poll(struct queue *q)
{
	if (pthread_mutex_trylock(&q->mutex) == 0)
		q->full = 0;
}
