#include <pthread.h>
#include <assert.h>

struct box {
	pthread_mutex_t mutex;
	pthread_cond_t filled;
	_Bool full;
};

/* right: waiting gives the mutex away and takes it again */
void box_take(struct box *box)
{
	pthread_mutex_lock(&box->mutex);
	while (!box->full)
		pthread_cond_wait(&box->filled, &box->mutex);
	assert(box->full);
	box->full = 0;
	pthread_mutex_unlock(&box->mutex);
}

/* wrong: the mutex is not held any more */
void box_drop(struct box *box)
{
	pthread_mutex_lock(&box->mutex);
	box->full = 0;
	pthread_mutex_unlock(&box->mutex);
	pthread_cond_wait(&box->filled, &box->mutex);
	pthread_mutex_unlock(&box->mutex);
}
